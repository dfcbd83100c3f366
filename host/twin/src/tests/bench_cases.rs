//! The bench cases of document 01.

use super::*;
use crate::{read, Row};

const PEER: u64 = 9;

#[test]
fn a_class_2_invoke_and_its_repeat_have_the_octets_of_the_paper() {
    let mut end = End::new(1, 5);
    assert_eq!(end.request(0, PEER, 2, 0, &[]).row, Row::RequestClass2Tidnew);
    assert_eq!(end.sent(), [0x0E, 0x00, 0x05, 0x22]);
    assert_eq!(end.timer(interval_r(2, 0)).row, Row::IResultWaitTimerInvoke);
    assert_eq!(end.sent(), [0x0F, 0x00, 0x05, 0x22]);
}

#[test]
fn a_later_class_2_invoke_and_its_repeat_are_without_tidnew() {
    let mut end = End::new(2, 4);
    end.request(0, PEER, 1, 0, &[]);
    assert_eq!(end.request(0, PEER, 2, 0, &[]).row, Row::RequestClass2);
    assert_eq!(end.sent(), [0x0E, 0x00, 0x05, 0x02]);
    assert_eq!(end.fire(interval_r(2, 0), [INITIATOR, PEER, 5]).row, Row::IResultWaitTimerInvoke);
    assert_eq!(end.sent(), [0x0F, 0x00, 0x05, 0x02]);
}

#[test]
fn the_result_to_it_has_the_octets_of_the_paper() {
    let mut end = End::new(1, 0);
    end.cache(9, 4);
    assert_eq!(end.receive(0, PEER, &[0x0E, 0x00, 0x05, 0x02]).row, Row::InvokeValid);
    assert_eq!(end.result(1, [RESPONDER, PEER, 5], &[]).row, Row::RInvokeRespWaitResult);
    assert_eq!(end.sent(), [0x16, 0x80, 0x05]);
}

#[test]
fn an_unmatched_tidve_is_aborted_with_reason_2() {
    let mut end = End::new(1, 0);
    assert_eq!(end.receive(0, PEER, &[0x1C, 0x80, 0x05]).row, Row::NoRecordTidve);
    assert_eq!(end.sent(), [0x20, 0x00, 0x05, 0x02]);
}

#[test]
fn the_last_ack_with_exit_information_has_the_octets_of_the_paper() {
    let mut end = End::new(1, 5);
    end.request(0, PEER, 2, 0, &[]);
    end.receive(1, PEER, &[0x16, 0x80, 0x05]);
    assert_eq!(end.answer(2, [INITIATOR, PEER, 5], &[0xAA, 0xBB]).row, Row::IResultRespWaitAnswerExit);
    assert_eq!(end.sent(), [0x98, 0x00, 0x05, 0x0A, 0xAA, 0xBB]);
}

#[test]
fn malformed_pdus_have_the_numbers_of_the_paper() {
    let number = |pdu: &[u8]| read(pdu, &mut [0; 88]);
    assert_eq!(number(&[0x00]), 102);
    assert_eq!(number(&[0x0E, 0x00, 0x05]), 101);
    assert_eq!(number(&[0x0E, 0x00, 0x05, 0x03]), 105);
    assert_eq!(number(&[0x18, 0x80, 0x05, 0x00]), 107);
}

#[test]
fn the_datagram_of_the_paper_is_two_pdus() {
    let datagram = [0x00, 0x03, 0x18, 0x80, 0x05, 0x04, 0x20, 0x80, 0x06, 0x08];
    let mut part = [7; 3];
    assert_eq!((crate::separate(&datagram, 0, &mut part), part), (0, [2, 3, 2]));
    assert_eq!((crate::separate(&datagram, 1, &mut part), part), (0, [6, 4, 2]));
    assert_eq!((crate::separate(&datagram, 2, &mut part), part), (0, [0, 0, 2]));
    let mut part = [7; 3];
    assert_eq!((crate::separate(&[0, 0], 0, &mut part), part), (11, [7; 3]));
}

#[test]
fn the_distance_of_tids_is_taken_modulo_32_768() {
    let row = |last: u16, tid: u16| {
        let mut end = End::new(1, 0);
        end.cache(9, last);
        let [high, low] = tid.to_be_bytes();
        end.receive(0, PEER, &[0x0E, high, low, 0x02]).row
    };
    assert_eq!(row(32_767, 0), Row::InvokeValid);
    assert_eq!(row(0, 16_383), Row::InvokeValid);
    assert_eq!(row(0, 16_384), Row::InvokeVerified);
    assert_eq!(row(7, 7), Row::InvokeVerified);
    assert_eq!(row(7, 6), Row::InvokeVerified);
}

#[test]
fn lengths_of_127_and_128_are_written_in_their_forms() {
    let joined = |length: usize| {
        let (mut out, mut answer) = (vec![0xEE; 1500], vec![7; 40]);
        assert_eq!(crate::join(&vec![1; length], &[length as u64], &mut out, &mut answer), 0);
        out[..answer[0] as usize].to_vec()
    };
    assert_eq!(joined(127)[..3], [0x00, 0x7F, 0x01]);
    assert_eq!(joined(128)[..4], [0x00, 0x80, 0x80, 0x01]);
    assert_eq!((joined(127).len(), joined(128).len()), (129, 131));
}

#[test]
fn data_of_1_024_octets_is_accepted_and_of_1_025_gives_4() {
    let mut end = End::new(1, 0);
    assert_eq!(end.request(0, PEER, 1, 0, &[1; 1025]).number, 4);
    assert_eq!(end.request(0, PEER, 1, 0, &[1; 1024]).number, 0);
    assert_eq!(end.sent().len(), 1028);
}

#[test]
fn a_table_of_48_records_takes_no_49th() {
    let mut end = End::new(48, 0);
    for _ in 0..48 {
        assert_eq!(end.request(0, PEER, 1, 0, &[]).number, 0);
    }
    assert_eq!(end.request(0, PEER, 1, 0, &[]).number, 7);
    assert_eq!(end.request(0, PEER, 0, 0, &[]).number, 0);
}

#[test]
fn rcr_max_0_sends_one_invoke() {
    let mut end = End::with(1, 5, &settings(0, 0));
    end.request(0, PEER, 2, 0, &[]);
    assert_eq!(end.timer(interval_r(2, 0)).row, Row::IResultWaitTimerEnd);
    assert_eq!(end.sent(), []);
    assert_eq!(end.shown(), [abort_shown([INITIATOR, PEER, 5], 0, 8)]);
    assert!(end.record(0).iter().all(|octet| *octet == 0));
}
