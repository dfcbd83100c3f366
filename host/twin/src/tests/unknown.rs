//! Unknown items: the examples of document 02's reading (L4), and that plain Acks alone name what a record keeps.

use super::tables::live;
use super::*;
use crate::Row;

const PEER: u64 = 7;
const MINE: [u64; 3] = [INITIATOR, PEER, 5];

fn end() -> End {
    End::of_the_reading(2, 5)
}

/// Words 18 and 19 of a PDU that is read.
fn read(pdu: &[u8]) -> [u64; 2] {
    let mut fields = [7; 88];
    assert_eq!(crate::read(pdu, &mut fields), 0, "{pdu:02X?}");
    [fields[18], fields[19]]
}

impl End {
    /// What a received PDU has this end send, and the unknown item that it tells.
    fn given(&mut self, now: u64, pdu: &[u8]) -> (Vec<u8>, [u64; 2]) {
        assert_eq!(self.receive(now, PEER, pdu).number, 0);
        (self.sent(), self.unknown())
    }

    /// What a firing has this end send.
    fn sent_by_a_firing(&mut self, now: u64) -> Vec<u8> {
        assert_eq!((self.timer(now).number, self.unknown()), (0, [0, 0]));
        self.sent()
    }
}

#[test]
fn the_first_example_a_verified_invoke_of_class_1_with_an_answer() {
    let pdu = [0x8E, 0, 0x40, 0x11, 0x91, 9, 0x9A, 1, 2, 0x79, 2, 0xEE];
    assert_eq!(read(&pdu), [15, 9]);
    let mut end = end();
    assert_eq!(end.given(0, &pdu), (vec![0x1C, 0x80, 0x40], [15, 9]));
    assert_eq!(end.given(1, &[0x1C, 0, 0x40]), (vec![], [0, 0]));
    assert_eq!(end.answer(2, [RESPONDER, PEER, 0x40], &[0xAA, 0xBB]).number, 0);
    assert_eq!((end.sent(), end.unknown()), (vec![0x98, 0x80, 0x40, 0x81, 0x1F, 0x0A, 0xAA, 0xBB], [0, 0]));
    let again = vec![0x99, 0x80, 0x40, 0x81, 0x1F, 0x0A, 0xAA, 0xBB];
    assert_eq!(end.given(3, &[0x8F, 0, 0x40, 0x11, 0x30]), (again.clone(), [6, 4]));
    assert_eq!(end.given(4, &[0x1D, 0, 0x40]), (again, [0, 0]));
}

#[test]
fn the_second_example_an_ack_by_the_timer_and_a_hold_on() {
    let mut end = end();
    end.cache(PEER as usize, 0x40);
    assert_eq!(end.given(0, &[0x8E, 0, 0x41, 1, 0x30]), (vec![], [6, 4]));
    assert_eq!(end.sent_by_a_firing(100), [0x98, 0x80, 0x41, 0x01, 0x16]);
    assert_eq!(end.given(100, &[0x8E, 0, 0x42, 2, 0x7D, 0, 0xEE]), (vec![], [15, 4]));
    assert_eq!(end.sent_by_a_firing(200), [0x98, 0x80, 0x42, 0x01, 0x1F]);
    assert_eq!(end.given(210, &[0x0F, 0, 0x42, 2]), (vec![0x99, 0x80, 0x42, 0x01, 0x1F], [0, 0]));
    assert_eq!(end.result(220, [RESPONDER, PEER, 0x42], &[0xDD]).number, 0);
    assert_eq!(end.sent(), [0x16, 0x80, 0x42, 0xDD]);
}

#[test]
fn the_third_example_the_initiator_keeps_that_of_the_result_which_it_takes() {
    let mut end = end();
    end.request(0, PEER, 2, 0, &[]);
    assert_eq!(end.given(1, &[0x98, 0x80, 5, 0x30]), (vec![], [6, 3]));
    assert_eq!((end.shown().len(), end.record(0)[24]), (1, 0));
    let result = [0x96, 0x80, 5, 0x8A, 1, 2, 0x4B, 3, 4, 5, 0xDD];
    assert_eq!(end.given(2, &result), (vec![], [9, 6]));
    assert_eq!(end.shown(), [data_shown(RESULT, MINE, 10, 1)]);
    assert_eq!(end.given(3, &[0x97, 0x80, 5, 0x50]), (vec![], [10, 3]));
    assert_eq!(end.answer(4, MINE, &[0xAA, 0xBB, 0xCC, 0xDD]).number, 0);
    let rest = [0x00, 5, 0x81, 0x19, 0x0C, 4, 0xAA, 0xBB, 0xCC, 0xDD];
    assert_eq!(end.sent(), [&[0x98], &rest[..]].concat());
    assert_eq!(end.given(5, &[0x17, 0x80, 5]), ([&[0x99], &rest[..]].concat(), [0, 0]));
}

#[test]
fn the_fourth_example_what_is_ignored_is_told_and_what_is_malformed_is_not() {
    let mut end = end();
    assert_eq!(end.given(0, &[0x8E, 0x90, 5, 2, 0x30]), (vec![], [6, 4]));
    assert_eq!(end.given(0, &[0x98, 0, 5, 0x30]), (vec![], [6, 3]));
    assert_eq!(end.given(0, &[0x98, 0, 5, 0x30, 1]), (vec![], [0, 0]));
    assert_eq!(end.given(0, &[0x9C, 0x90, 5, 0x30]), (vec![0x20, 0x10, 5, 2], [6, 3]));
    assert_eq!(end.given(0, &[0x8E, 0, 5, 0, 0x30]), (vec![], [6, 4]));
    assert_eq!(end.shown()[0].start, 5);
    assert_eq!(end.record(0), [0; 176]);
}

#[test]
fn the_first_of_sixteen_is_told_and_a_known_one_never() {
    let sixteen = |first: u8| [vec![0x96, 0x80, 5, first | 0x80], vec![0xB0; 14], vec![0x30]].concat();
    for identity in 0..=15_u8 {
        let first = identity << 3;
        assert_eq!(read(&sixteen(first)), if identity > 5 { [identity.into(), 3] } else { [6, 4] });
        assert_eq!(read(&[0x96, 0x80, 5, first | 4, 0]), if identity > 5 { [identity.into(), 3] } else { [0, 0] });
    }
    assert_eq!(read(&[0xB8, 0, 5, 2, 9, 9, 0x88, 0x30]), [6, 7]);
}

#[test]
fn the_longest_ack_has_135_octets() {
    let mut end = end();
    end.record(0).copy_from_slice(&live(3));
    end.record(0)[24] = 12;
    assert_eq!(end.answer(0, [INITIATOR, 9, 5], &[0x61; 128]).number, 0);
    let sent = end.sent();
    assert_eq!((sent.len(), &sent[..8]), (135, &[0x98, 0, 5, 0x81, 0x1C, 0x0C, 128, 0x61][..]));
}

/// The PDU that an event has a due record of this state send.
fn sent_with(state: u8, identity: u8, event: fn(&mut End, [u64; 3]) -> Said) -> Vec<u8> {
    let mut end = end();
    let record = end.record(0);
    record.copy_from_slice(&live(state));
    record[6] = if state == 9 { 8 } else { 0 };
    record[8] = 1;
    record[24] = identity;
    event(&mut end, [u64::from(state > 4), 9, 5]);
    end.sent()
}

#[test]
fn plain_acks_alone_change_with_an_identity() {
    let events: [fn(&mut End, [u64; 3]) -> Said; 6] = [
        |end, _| end.timer(1),
        |end, name| end.receive(1, 9, if name[0] == 0 { &[0x17, 0x80, 5] } else { &[0x0F, 0, 5, 1] }),
        |end, name| end.receive(1, 9, &[0x1D, if name[0] == 0 { 0x80 } else { 0 }, 5]),
        |end, name| end.receive(1, 9, &[0x00, if name[0] == 0 { 0x80 } else { 0 }, 5]),
        |end, name| end.answer(1, name, &[]),
        |end, name| end.abort(1, name, 3),
    ];
    let mut named = 0;
    for state in 1..=11 {
        for event in events {
            let [without, with] = [0, 14].map(|identity| sent_with(state, identity, event));
            let is_plain_ack = matches!(without[..], [0x18 | 0x19, ..]);
            let expected = if is_plain_ack { [&[without[0] | 0x80], &without[1..], &[0x01, 0x1E]].concat() } else { without };
            assert_eq!(with, expected, "state {state}");
            named += u32::from(is_plain_ack);
        }
    }
    assert_eq!(named, 10);
}

#[test]
fn a_result_without_an_unknown_item_takes_an_identity_away() {
    for flags in [0, 2] {
        let mut end = end();
        end.record(0).copy_from_slice(&live(2));
        end.record(0)[6] = flags;
        end.record(0)[24] = 9;
        assert_eq!(end.receive(0, 9, &[0x96, 0x80, 5, 0x08]).number, 0);
        assert_eq!(end.record(0)[24], 0);
    }
}

#[test]
fn a_hold_on_has_no_exit_information_whatever_the_record_says() {
    let mut end = end();
    end.record(0).copy_from_slice(&live(8));
    end.record(0)[7] = 3;
    end.record(0)[8] = 1;
    end.record(0)[24] = 6;
    assert_eq!(end.timer(1).row, Row::RInvokeRespWaitTimerClass2);
    assert_eq!(end.sent(), [0x98, 0x80, 5, 0x01, 0x16]);
}

#[test]
fn the_writer_passes_over_what_the_reader_told() {
    let pdu = [0x96, 0x80, 5, 0x8A, 1, 2, 0x4B, 3, 4, 5, 0xDD];
    let mut fields = [0; 88];
    assert_eq!(crate::read(&pdu, &mut fields), 0);
    for words in [[9, 6], [0, 0], [u64::MAX, u64::MAX]] {
        fields[18..20].copy_from_slice(&words);
        let (mut out, mut answer) = ([0; 1500], [7; 40]);
        assert_eq!(crate::write(&fields, &pdu, &mut out, &mut answer), 0);
        assert_eq!((&out[..11], answer[1..].iter().sum::<u64>()), (&pdu[..], 0));
    }
    fields[20] = 1;
    assert_eq!(crate::write(&fields, &pdu, &mut [0; 1500], &mut [0; 40]), 101);
}
