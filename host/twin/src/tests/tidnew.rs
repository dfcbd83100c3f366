//! TIDnew: the examples of document 02's reading (L2), and its rows one by one.

use super::*;
use crate::Row;

const PEER: u64 = 7;

impl End {
    /// What an accepted request sends.
    fn requested(&mut self, class: u64, user_ack: u64, data: &[u8]) -> Vec<u8> {
        assert_eq!(self.request(0, PEER, class, user_ack, data).number, 0);
        self.sent()
    }

    /// What the firing of a record of the table's own sends.
    fn fired(&mut self, now: u64, tid: u64) -> Vec<u8> {
        assert_eq!(self.fire(now, [INITIATOR, PEER, tid]).number, 0);
        self.sent()
    }

    /// What an accepted PDU of the peer makes this end send.
    fn heard(&mut self, pdu: &[u8]) -> Vec<u8> {
        assert_eq!(self.receive(0, PEER, pdu).number, 0);
        self.sent()
    }

    fn tidnew_due(&self) -> bool {
        self.table[97] == 1
    }

    /// LastTID of a peer, as the table has it: 0 where none is cached, else one more.
    fn cached(&self, peer: usize) -> u16 {
        u16::from_le_bytes([self.table[112 + 2 * peer], self.table[113 + 2 * peer]])
    }
}

/// A responder that has heard the peer's TID 40h, and another peer's.
fn responder() -> End {
    let mut end = End::of_the_reading(4, 0);
    end.cache(PEER as usize, 0x40);
    end.cache(8, 3);
    end
}

#[test]
fn the_first_example_a_fresh_table() {
    let mut end = End::of_the_reading(1, 5);
    assert_eq!(end.requested(2, 0, &[]), [0x0E, 0x00, 0x05, 0x22]);
    assert_eq!(end.timer(150).row, Row::IResultWaitTimerInvoke);
    assert_eq!(end.sent(), [0x0F, 0x00, 0x05, 0x22]);
}

#[test]
fn the_second_example_due_from_fresh_and_again_after_the_wrap() {
    let mut end = End::of_the_reading(3, 32_766);
    assert_eq!(end.requested(0, 1, &[0xAB]), [0x0E, 0x7F, 0xFE, 0x10, 0xAB]);
    assert_eq!(end.request(0, PEER, 3, 0, &[]).number, 5);
    assert_eq!(end.requested(2, 1, &[0xAB]), [0x0E, 0x7F, 0xFF, 0x32, 0xAB]);
    assert_eq!(end.timer(150).row, Row::IResultWaitTimerInvoke);
    assert_eq!(end.sent(), [0x0F, 0x7F, 0xFF, 0x32, 0xAB]);
    assert_eq!(end.request(150, PEER, 1, 0, &[]).row, Row::RequestClass1Tidnew);
    assert_eq!(end.sent(), [0x0E, 0x00, 0x00, 0x21]);
    assert_eq!(end.request(150, PEER, 1, 0, &[]).row, Row::RequestClass1);
    assert_eq!(end.sent(), [0x0E, 0x00, 0x01, 0x01]);
}

#[test]
fn the_third_example_the_request_that_wraps_does_not_carry_what_it_makes_due() {
    let mut end = End::of_the_reading(3, 32_766);
    assert_eq!(end.requested(2, 0, &[]), [0x0E, 0x7F, 0xFE, 0x22]);
    assert_eq!(end.request(0, PEER, 2, 0, &[]).row, Row::RequestClass2Wraps);
    assert_eq!(end.sent(), [0x0E, 0x7F, 0xFF, 0x02]);
    assert_eq!(end.fired(150, 32_766), [0x0F, 0x7F, 0xFE, 0x22]);
    assert_eq!(end.fired(150, 32_767), [0x0F, 0x7F, 0xFF, 0x02]);
    assert_eq!(end.request(150, PEER, 2, 0, &[]).row, Row::RequestClass2Tidnew);
    assert_eq!(end.sent(), [0x0E, 0x00, 0x00, 0x22]);
}

#[test]
fn the_fourth_example_a_reader_that_restarted() {
    let mut end = responder();
    assert_eq!(end.receive(0, PEER, &[0x0E, 0, 0x41, 0x22, 0xCC]).row, Row::InvokeRestarted);
    assert_eq!(end.sent(), [0x1C, 0x80, 0x41]);
    assert_eq!(end.receive(0, PEER, &[0x0E, 0, 0x42, 0x01]).row, Row::InvokeNothingCached);
    assert_eq!(end.sent(), [0x1C, 0x80, 0x42]);
    assert_eq!(end.receive(0, PEER, &[0x1D, 0, 0x41]).row, Row::RTidokWaitTidokNothingCached);
    let shown = Shown { class: 2, source: 1, ..data_shown(INVOKE, [RESPONDER, PEER, 0x41], 0, 1) };
    assert_eq!((end.shown(), end.store[0], end.cached(7)), (vec![shown], 0xCC, 0x42));
    assert_eq!(end.receive(0, PEER, &[0x0E, 0, 0x43, 0x02]).row, Row::InvokeValid);
}

#[test]
fn a_fresh_table_owes_it_whatever_its_first_tid() {
    for first_tid in [0, 5, 32_767] {
        assert!(End::new(1, first_tid).tidnew_due(), "{first_tid}");
    }
    let mut end = End::new(2, 0);
    assert_eq!(end.requested(1, 0, &[]), [0x0E, 0, 0, 0x21]);
    assert_eq!(end.requested(1, 0, &[]), [0x0E, 0, 1, 0x01], "one flag, not two");
}

#[test]
fn class_0_never_carries_it_and_keeps_it_due() {
    let mut end = End::new(1, 32_766);
    assert_eq!(end.requested(0, 0, &[]), [0x0E, 0x7F, 0xFE, 0x00]);
    assert!(end.tidnew_due());
    let mut end = End::new(1, 32_767).after_its_first();
    assert_eq!(end.request(0, PEER, 0, 0, &[]).row, Row::RequestClass0Wraps);
    assert!(end.tidnew_due());
    assert_eq!(end.requested(1, 0, &[]), [0x0E, 0, 0, 0x21]);
}

#[test]
fn a_refused_request_leaves_it_due() {
    let mut end = End::new(1, 5);
    for (peer, class, length) in [(256, 1, 0), (PEER, 1, 1025), (PEER, 3, 0)] {
        assert_ne!(end.request(0, peer, class, 0, &vec![0; length]).number, 0);
        assert!(end.tidnew_due());
    }
    end.requested(1, 0, &[]);
    end.table[97] = 1;
    assert_eq!(end.request(0, PEER, 1, 0, &[]).number, 7);
    assert!(end.tidnew_due());
}

#[test]
fn a_repeat_has_the_flag_of_its_record_and_a_tidok_none() {
    let mut end = End::new(2, 5);
    end.requested(1, 0, &[]);
    end.requested(2, 0, &[]);
    end.table[97] = 1;
    assert_eq!(end.fired(interval_r(2, 0), 6), [0x0F, 0, 6, 0x02]);
    assert_eq!(end.fired(interval_r(2, 0), 5), [0x0F, 0, 5, 0x21]);
    assert_eq!(end.receive(3_000, PEER, &[0x1C, 0x80, 5]).row, Row::IResultWaitFirstTidok);
    assert_eq!(end.sent(), [0x1C, 0, 5]);
    assert_eq!(end.record(0)[6], 16 + 4);
}

#[test]
fn every_distance_is_verified_and_only_the_own_peers_tid_is_dropped() {
    for (tid, rid) in [(0x41, 0), (0x40, 1), (0x3F, 0), (0x4040, 1)] {
        let mut end = responder();
        let [high, low] = u16::to_be_bytes(tid);
        assert_eq!(end.heard(&[0x0E | rid, high, low, 0x21]), [0x1C, high | 0x80, low]);
        assert_eq!((end.cached(7), end.cached(8)), (0, 4));
    }
    let mut end = responder();
    assert_eq!(end.receive(0, 9, &[0x0E, 0, 5, 0x21]).row, Row::InvokeRestartedNothingCached);
    assert_eq!((end.cached(7), end.cached(8), end.cached(9)), (0x41, 4, 0));
}

#[test]
fn the_cached_tid_stays_where_an_earlier_test_decides() {
    let long = [&[0x0E, 0, 5, 0x21][..], &[0; 1025]].concat();
    let pdus: [&[u8]; 7] = [
        &[0x0E, 0, 5, 0x61],
        &[0x0C, 0, 5, 0x21],
        &long,
        &[0x0E, 0, 5, 0x23],
        &[0x8E, 0, 5, 0x21],
        &[0x0E, 0, 5, 0x20],
        &[0x0E, 0x80, 5, 0x21],
    ];
    for pdu in pdus {
        let mut end = responder();
        end.heard(pdu);
        assert_eq!(end.cached(7), 0x41, "{:02X?}", &pdu[..4]);
    }
    let mut full = responder();
    (0..4).for_each(|_| assert_eq!(full.request(0, 9, 1, 0, &[]).number, 0));
    assert_eq!(full.receive(0, PEER, &[0x0E, 0, 5, 0x21]).row, Row::InvokeTableFull);
    assert_eq!(full.cached(7), 0x41);
}

#[test]
fn with_a_live_record_it_is_that_records_event() {
    let mut end = responder();
    assert_eq!(end.receive(0, PEER, &[0x0E, 0, 0x41, 0x02]).row, Row::InvokeValid);
    assert_eq!(end.receive(0, PEER, &[0x0F, 0, 0x41, 0x22]).row, Row::RInvokeRespWaitInvoke);
    assert_eq!(end.cached(7), 0x42);
}

#[test]
fn what_was_dropped_stays_so_when_the_verification_fails() {
    let mut end = responder();
    end.heard(&[0x0E, 0, 5, 0x22]);
    assert_eq!(end.receive(0, PEER, &[0x20, 0, 5, 8]).row, Row::RTidokWaitAbort);
    assert_eq!(end.cached(7), 0);
}

#[test]
fn two_verifications_the_second_with_tidnew() {
    let mut end = responder();
    end.heard(&[0x0E, 0, 5, 0x22]);
    end.heard(&[0x1C, 0, 5]);
    assert_eq!(end.cached(7), 6);
    end.heard(&[0x0E, 0, 2, 0x22]);
    assert_eq!(end.cached(7), 0, "dropped anew");
    assert_eq!(end.receive(0, PEER, &[0x1D, 0, 2]).row, Row::RTidokWaitTidokNothingCached);
    assert_eq!(end.cached(7), 3);
}
