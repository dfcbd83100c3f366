//! Whole transactions between two ends.

use super::*;
use crate::Row;

/// The reader's number for the gateway, and the gateway's for the reader.
const GATEWAY: u64 = 200;
const READER: u64 = 3;

#[test]
fn a_class_0_message_is_shown_and_leaves_nothing() {
    let (mut reader, mut gateway) = (End::new(1, 32_767), End::new(1, 0));
    assert_eq!(reader.request(5, GATEWAY, 0, 1, b"air").row, Row::RequestClass0Wraps);
    assert_eq!(reader.answer[2], 32_767);
    assert_eq!(reader.table[8..10], [0, 0]);
    let pdu = reader.sent();
    assert_eq!(gateway.receive(1, READER, &pdu).row, Row::InvokeClass0);
    let shown = Shown { user_ack: 1, ..data_shown(INVOKE, [RESPONDER, READER, 32_767], 4, 3) };
    assert_eq!(gateway.shown(), [shown]);
    assert!(gateway.record(0).iter().all(|octet| *octet == 0));
}

#[test]
fn a_class_1_transaction_is_verified_shown_and_confirmed_with_exit_information() {
    let (mut reader, mut gateway) = (End::new(2, 5), End::new(2, 0));
    reader.request(0, GATEWAY, 1, 0, b"sampler");
    assert_eq!(gateway.receive(0, READER, &reader.sent()).row, Row::InvokeRestartedNothingCached);
    assert_eq!(gateway.sent(), [0x1C, 0x80, 0x05]);
    assert_eq!(gateway.store[..8], *b"sampler\x5A");
    assert_eq!(reader.receive(1, GATEWAY, &gateway.sent()).row, Row::IResultWaitFirstTidok);
    assert_eq!(reader.sent(), [0x1C, 0x00, 0x05]);
    assert_eq!(gateway.receive(2, READER, &reader.sent()).row, Row::RTidokWaitTidokNothingCached);
    let shown = Shown { class: 1, source: 1, ..data_shown(INVOKE, [RESPONDER, READER, 5], 0, 7) };
    assert_eq!(gateway.shown(), [shown]);
    assert_eq!(gateway.answer(3, [RESPONDER, READER, 5], b"four").row, Row::RInvokeRespWaitAnswerClass1Exit);
    assert_eq!(gateway.sent(), *b"\x98\x80\x05\x0C\x04four");
    assert_eq!(gateway.receive(4, READER, &[0x0F, 0, 5, 1]).row, Row::RWaitTimeoutInvokeAgainExit);
    assert_eq!(gateway.sent(), *b"\x99\x80\x05\x0C\x04four");
    assert_eq!(reader.receive(5, GATEWAY, &gateway.sent()).row, Row::IResultWaitAckClass1);
    assert_eq!(reader.shown(), [data_shown(CONFIRMATION, [INITIATOR, GATEWAY, 5], 5, 4)]);
    assert_eq!(gateway.timer(3 + W).row, Row::RWaitTimeoutTimer);
    assert_eq!(gateway.answer[28..31], [RESPONDER, READER, 5]);
}

#[test]
fn a_class_2_transaction_with_hold_on_ends_with_an_empty_result_that_is_a_result() {
    let (mut reader, mut gateway) = (End::new(2, 5).after_its_first(), End::new(2, 0));
    gateway.cache(READER as usize, 4);
    reader.request(0, GATEWAY, 2, 0, b"sampler");
    assert_eq!(gateway.receive(0, READER, &reader.sent()).row, Row::InvokeValid);
    assert_eq!(gateway.sent(), []);
    assert_eq!(gateway.timer(A).row, Row::RInvokeRespWaitTimerClass2);
    assert_eq!(reader.receive(A, GATEWAY, &gateway.sent()).row, Row::IResultWaitFirstAck);
    assert_eq!(reader.shown(), [data_shown(CONFIRMATION, [INITIATOR, GATEWAY, 5], 0, 0)]);
    assert_eq!(reader.timer(10_000).row, Row::TimerNoneDue);
    assert_eq!(gateway.result(300, [RESPONDER, READER, 5], &[]).row, Row::RResultWaitResult);
    assert_eq!(reader.receive(10_000, GATEWAY, &gateway.sent()).row, Row::IResultWaitResultHoldOn);
    assert_eq!(reader.shown(), [data_shown(RESULT, [INITIATOR, GATEWAY, 5], 3, 0)]);
    assert_eq!(reader.timer(10_000 + A).row, Row::IResultRespWaitTimerAck);
    assert_eq!(gateway.receive(400, READER, &reader.sent()).row, Row::RResultRespWaitAck);
    assert_eq!(gateway.shown(), [data_shown(CONFIRMATION, [RESPONDER, READER, 5], 0, 0)]);
    assert_eq!(reader.receive(10_200, GATEWAY, &[0x17, 0x80, 5]).row, Row::IWaitTimeoutAckAgain);
    assert_eq!(reader.sent(), [0x19, 0, 5]);
    assert_eq!(reader.timer(10_000 + A + W).row, Row::IWaitTimeoutTimer);
}

#[test]
fn a_result_without_hold_on_confirms_first_and_shows_its_own_data() {
    let mut reader = End::new(1, 5);
    reader.request(0, GATEWAY, 2, 0, &[]);
    assert_eq!(reader.receive(1, GATEWAY, b"\x96\x80\x05\x09!12").row, Row::IResultWaitResult);
    let name = [INITIATOR, GATEWAY, 5];
    assert_eq!(reader.shown(), [data_shown(CONFIRMATION, name, 0, 0), data_shown(RESULT, name, 5, 2)]);
}

#[test]
fn a_users_abort_is_shown_to_the_peer_as_an_abort_with_type_and_reason() {
    let (mut reader, mut gateway) = (End::new(1, 5).after_its_first(), End::new(1, 0));
    reader.request(0, GATEWAY, 2, 0, &[]);
    gateway.cache(READER as usize, 4);
    gateway.receive(0, READER, &reader.sent());
    assert_eq!(gateway.abort(1, [RESPONDER, READER, 5], 0xFE).row, Row::RInvokeRespWaitUserAbort);
    assert_eq!((gateway.sent(), gateway.shown()), (vec![0x21, 0x80, 5, 0xFE], vec![]));
    assert_eq!(reader.receive(1, GATEWAY, &gateway.sent()).row, Row::IResultWaitAbort);
    assert_eq!(reader.shown(), [abort_shown([INITIATOR, GATEWAY, 5], 1, 0xFE)]);
}

#[test]
fn a_tidve_while_held_on_starts_the_timer_again() {
    let mut reader = End::new(1, 5);
    reader.request(0, GATEWAY, 2, 1, &[]);
    reader.receive(1, GATEWAY, &[0x18, 0x80, 5]);
    assert_eq!(reader.receive(2, GATEWAY, &[0x1D, 0x80, 5]).row, Row::IResultWaitFirstTidok);
    assert_eq!(reader.receive(3, GATEWAY, &[0x18, 0x80, 5]).row, Row::IResultWaitLaterAck);
    assert_eq!(reader.timer(2 + interval_r(2, 1)).row, Row::IResultWaitTimerTidok);
    assert_eq!(reader.sent(), [0x1D, 0, 5]);
    assert_eq!(reader.receive(2000, GATEWAY, &[0x1C, 0x80, 5]).number, 2);
    assert_eq!(reader.receive(2010, GATEWAY, &[0x1C, 0x80, 5]).row, Row::IResultWaitTidveIgnored);
    assert_eq!(reader.timer(5000).row, Row::IResultWaitTimerEnd);
    assert_eq!(reader.shown(), [abort_shown([INITIATOR, GATEWAY, 5], 0, 8)]);
}

#[test]
fn the_earliest_deadline_fires_first_and_the_lowest_place_on_ties() {
    let mut end = End::new(3, 5);
    end.request(0, 1, 2, 0, &[]);
    end.request(0, 2, 1, 0, &[]);
    end.request(0, 3, 1, 0, &[]);
    let mut fired = || {
        assert_eq!(end.timer(5000).row, Row::IResultWaitTimerInvoke);
        end.answer[29]
    };
    assert_eq!((fired(), fired(), fired()), (2, 3, 1));
}

#[test]
fn a_user_who_does_not_answer_is_told_of_the_abort() {
    let mut gateway = End::new(1, 0);
    gateway.cache(3, 4);
    gateway.receive(0, READER, &[0x0E, 0, 5, 0x12]);
    assert_eq!(gateway.timer(A).row, Row::RInvokeRespWaitTimerAgain);
    assert_eq!(gateway.timer(2 * A).row, Row::RInvokeRespWaitTimerEnd);
    assert_eq!(gateway.sent(), [0x20, 0x80, 5, 8]);
    assert_eq!(gateway.shown(), [abort_shown([RESPONDER, READER, 5], 0, 8)]);
}
