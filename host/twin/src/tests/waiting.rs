//! The waiting limit: the examples of document 02's reading (L6), its rows one by one, and how many firings free a record.

use super::tables::live;
use super::*;
use crate::Row;

const PEER: u64 = 7;
const LIMIT: u64 = 5_000;
const MINE: [u64; 3] = [INITIATOR, PEER, 5];
const THEIRS: [u64; 3] = [RESPONDER, PEER, 0x40];

fn end() -> End {
    End::with(2, 5, &limited(settings_of_the_reading(), LIMIT))
}

impl End {
    /// The earliest deadline.
    fn dl(&self) -> u64 {
        self.deadline().unwrap()[1]
    }

    /// The limit in force of the record at place 0.
    fn in_force(&mut self) -> u32 {
        u32::from_le_bytes(self.record(0)[20..24].try_into().unwrap())
    }

    /// Whether the record at place 0 is free.
    fn is_free(&mut self) -> bool {
        self.record(0) == [0; 176]
    }
}

/// An initiator of class 2 that was held on at 10.
fn held_on() -> End {
    let mut end = end();
    end.request(0, PEER, 2, 0, &[]);
    assert_eq!(end.receive(10, PEER, &[0x18, 0x80, 5]).row, Row::IResultWaitFirstAck);
    assert_eq!((end.shown().len(), end.dl(), end.in_force()), (1, 5_010, 5_000));
    end
}

/// A responder of class 2 whose Invoke was shown at 10.
fn shown(user_ack: u8) -> End {
    let mut end = end();
    end.cache(PEER as usize, 0x3F);
    assert_eq!(end.receive(10, PEER, &[0x0E, 0, 0x40, 2 | user_ack << 4, 0xCC]).row, Row::InvokeValid);
    assert_eq!((end.dl(), end.in_force()), (110, 0));
    end
}

/// The same after its hold-on, at 110.
fn waiting() -> End {
    let mut end = shown(0);
    assert_eq!(end.timer(110).row, Row::RInvokeRespWaitTimerClass2);
    assert_eq!((end.sent(), end.dl(), end.in_force()), (vec![0x18, 0x80, 0x40], 5_110, 5_000));
    end
}

#[test]
fn the_first_example_a_verification_ends_silently() {
    let mut end = end();
    assert_eq!(end.receive(0, PEER, &[0x0E, 0, 0x40, 2, 0xCC]).row, Row::InvokeNothingCached);
    assert_eq!((end.sent(), end.deadline()), (vec![0x1C, 0x80, 0x40], Ok([1, 5_000, 1, 7, 0x40])));
    assert_eq!(end.receive(4_000, PEER, &[0x0F, 0, 0x40, 2, 0xCC]).row, Row::RTidokWaitInvokeAgain);
    assert_eq!((end.sent(), end.dl()), (vec![0x1D, 0x80, 0x40], 5_000));
    assert_eq!(end.timer(4_999).row, Row::TimerNoneDue);
    assert_eq!(end.timer(5_000).row, Row::RTidokWaitLimit);
    assert_eq!((end.sent(), end.shown(), end.answer[3], &end.answer[28..31]), (vec![], vec![], 1, &THEIRS[..]));
    assert!(end.is_free());
    assert_eq!(end.receive(5_001, PEER, &[0x1C, 0, 0x40]).row, Row::NoRecordAck);
}

#[test]
fn the_second_example_held_on() {
    let mut end = held_on();
    assert_eq!(end.receive(3_000, PEER, &[0x19, 0x80, 5]).row, Row::IResultWaitLaterAck);
    assert_eq!((end.shown(), end.dl()), (vec![], 5_010));
    assert_eq!(end.timer(5_010).row, Row::IResultWaitLimit);
    assert_eq!((end.sent(), end.shown()), (vec![], vec![abort_shown(MINE, 0, 8)]));
    assert!(end.is_free());
}

#[test]
fn the_third_example_a_tidve_while_held_on_makes_it_an_ordinary_timer() {
    let mut end = held_on();
    assert_eq!(end.receive(3_000, PEER, &[0x1C, 0x80, 5]).row, Row::IResultWaitFirstTidok);
    assert_eq!((end.sent(), end.dl(), end.in_force()), (vec![0x1C, 0, 5], 3_160, 0));
    assert_eq!(end.receive(3_001, PEER, &[0x18, 0x80, 5]).row, Row::IResultWaitLaterAck);
    assert_eq!(end.dl(), 3_160);
    assert_eq!(end.timer(3_160).row, Row::IResultWaitTimerTidok);
    assert_eq!((end.sent(), end.dl()), (vec![0x1D, 0, 5], 3_330));
    assert_eq!(end.receive(3_200, PEER, &[0x1C, 0x80, 5]).row, Row::IResultWaitTidveIgnored);
    assert_eq!(end.dl(), 3_330);
    assert_eq!(end.timer(3_330).row, Row::IResultWaitTimerEnd);
    assert_eq!(end.shown(), [abort_shown(MINE, 0, 8)]);
}

#[test]
fn the_fourth_example_the_responders_result_wait() {
    let mut end = waiting();
    assert_eq!(end.receive(200, PEER, &[0x0F, 0, 0x40, 2, 0xCC]).row, Row::RResultWaitInvokeAgain);
    assert_eq!((end.sent(), end.dl()), (vec![0x19, 0x80, 0x40], 5_110));
    assert_eq!(end.timer(5_110).row, Row::RResultWaitLimit);
    assert_eq!((end.sent(), end.shown()), (vec![0x20, 0x80, 0x40, 8], vec![abort_shown(THEIRS, 0, 8)]));
    assert!(end.is_free());
}

#[test]
fn a_limit_is_fired_by_name_as_by_the_timer() {
    let mut verified = end();
    verified.receive(10, PEER, &[0x0E, 0, 0x40, 1]);
    for (end, name) in [(held_on(), MINE), (waiting(), THEIRS), (verified, THEIRS)] {
        let (mut whole, mut in_two) = (end.clone(), end);
        let at = in_two.dl();
        assert_eq!(in_two.fire(at - 1, name).row, Row::FireNotDue);
        assert_eq!(in_two.fire(at, name).row, whole.timer(at).row);
        assert_eq!(whole, in_two);
    }
}

#[test]
fn a_verification_that_ends_silently_leaves_last_tid() {
    for (last, tidnew, after) in [(0x50, 0, 0x51), (0x50, 0x20, 0), (0x3F, 0x20, 0)] {
        let mut end = end();
        end.cache(PEER as usize, last);
        end.receive(0, PEER, &[0x0E, 0, 0x40, 1 | tidnew]);
        assert_eq!(end.fire(5_000, THEIRS).row, Row::RTidokWaitLimit);
        assert_eq!(end.table[112 + 14], after);
    }
}

#[test]
fn rows_that_start_a_timer_end_the_limit() {
    let mut verified = end();
    verified.receive(0, PEER, &[0x0E, 0, 0x40, 1]);
    assert_eq!(verified.receive(20, PEER, &[0x1C, 0, 0x40]).row, Row::RTidokWaitTidokNothingCached);
    assert_eq!((verified.dl(), verified.in_force()), (120, 0));
    let mut confirmed = held_on();
    assert_eq!(confirmed.receive(20, PEER, &[0x16, 0x80, 5]).row, Row::IResultWaitResultHoldOn);
    assert_eq!((confirmed.dl(), confirmed.in_force()), (120, 0));
    let mut given = waiting();
    assert_eq!(given.result(120, THEIRS, &[1]).row, Row::RResultWaitResult);
    assert_eq!((given.dl(), given.in_force()), (270, 0));
    let mut works = shown(1);
    assert_eq!(works.answer(20, THEIRS, &[]).row, Row::RInvokeRespWaitAnswerClass2);
    assert_eq!((works.dl(), works.in_force()), (120, 0));
    assert_eq!(works.timer(120).row, Row::RResultWaitTimer);
    assert_eq!((works.dl(), works.in_force()), (5_120, 5_000));
    assert_eq!(works.timer(5_120).row, Row::RResultWaitLimit);
}

#[test]
fn a_limit_may_lie_past_the_bound_of_times() {
    let mut end = End::with(1, 5, &limited(settings(2, 1), 86_400_000));
    end.receive(1_000_000_000_000, PEER, &[0x0E, 0, 0x40, 1]);
    assert_eq!(end.deadline(), Ok([1, 1_000_086_400_000, 1, 7, 0x40]));
    assert_eq!(end.timer(1_000_000_000_000).row, Row::TimerNoneDue);
}

#[test]
fn with_the_mode_off_the_waits_have_no_end() {
    let mut end = End::of_the_reading(3, 5);
    end.receive(0, PEER, &[0x0E, 0, 0x40, 2]);
    end.request(0, PEER, 2, 0, &[]);
    end.receive(0, PEER, &[0x18, 0x80, 5]);
    end.receive(0, 8, &[0x0E, 0, 0x41, 2]);
    end.receive(0, 8, &[0x1C, 0, 0x41]);
    assert_eq!(end.timer(100).row, Row::RInvokeRespWaitTimerClass2);
    assert_eq!(end.deadline(), Ok([0; 5]));
}

#[test]
fn on_a_made_up_table_the_records_limit_counts_and_not_the_mode() {
    let due = |state: u8, flags: u8, limit: u8| {
        let mut record = live(state);
        (record[6], record[8], record[20]) = (flags, 1, limit);
        let fired = [End::new(1, 0), End::with(1, 0, &limited(settings(2, 1), 9))].map(|mut end| {
            end.record(0).copy_from_slice(&record);
            end.timer(1).row
        });
        assert_eq!(fired[0], fired[1], "state {state}, flags {flags}, limit {limit}");
        fired[0]
    };
    for state in [5, 6] {
        assert_eq!([due(state, 0, 0), due(state, 0, 1)], [Row::RTidokWaitTimer, Row::RTidokWaitLimit]);
    }
    for flags in 0..32 {
        assert_ne!(due(1, flags, 1), Row::IResultWaitLimit, "class 1");
        assert_eq!(due(2, flags, 1) == Row::IResultWaitLimit, flags & 2 != 0, "flags {flags}");
        assert_ne!(due(2, flags, 0), Row::IResultWaitLimit);
    }
    for flags in 0..16 {
        assert_eq!(due(9, flags, 1) == Row::RResultWaitLimit, flags & 8 != 0, "flags {flags}");
        assert_ne!(due(9, flags, 0), Row::RResultWaitLimit);
        for state in [7, 8, 10, 11] {
            assert_eq!(due(state, flags, 1), due(state, flags, 0), "state {state}, flags {flags}");
        }
    }
    for state in [3, 4] {
        assert_eq!(due(state, 31, 1), due(state, 31, 0), "state {state}");
    }
}

#[test]
fn with_the_mode_off_a_row_without_a_timer_leaves_neither_deadline_nor_limit() {
    let mut record = live(2);
    (record[8], record[20]) = (50, 5);
    let mut end = End::new(1, 0);
    end.record(0).copy_from_slice(&record);
    assert_eq!(end.receive(1, 9, &[0x18, 0x80, 5]).row, Row::IResultWaitFirstAck);
    assert_eq!((end.deadline(), end.in_force()), (Ok([0; 5]), 0));
}

/// Fires the one record until it is free: how often.
fn firings(mut end: End) -> u64 {
    let mut fired = 0;
    while end.deadline() != Ok([0; 5]) {
        let at = end.dl();
        assert_eq!(end.timer(at).number, 0);
        fired += 1;
    }
    assert!(end.is_free(), "a record is left without a deadline");
    fired
}

#[test]
fn firings_alone_free_a_record_within_the_bound_and_attain_it() {
    for (rcr_max, aec_max) in [(0, 0), (0, 8), (8, 0), (2, 1), (1, 2), (8, 8)] {
        let fresh = || End::with(1, 5, &limited(settings(rcr_max, aec_max), LIMIT));
        let invoke = |class: u8, user_ack: u8| {
            let mut end = fresh();
            end.cache(PEER as usize, 0x3F);
            end.receive(0, PEER, &[0x0E, 0, 0x40, class | user_ack << 4]);
            end
        };
        let mut verified = fresh();
        verified.receive(0, PEER, &[0x0E, 0, 0x40, 1]);
        let mut requested = fresh();
        requested.request(0, PEER, 1, 0, &[]);
        let mut given = invoke(2, 0);
        given.result(0, THEIRS, &[]);
        let counts = [requested, given, invoke(1, 1), invoke(2, 1), invoke(1, 0), invoke(2, 0), verified].map(firings);
        assert_eq!(counts, [rcr_max + 1, rcr_max + 1, aec_max + 1, aec_max + 1, 2, 2, 1]);
        let bound = 1 + rcr_max.max(aec_max).max(1);
        assert_eq!(counts.into_iter().max(), Some(bound), "RCR_MAX {rcr_max}, AEC_MAX {aec_max}");
    }
}
