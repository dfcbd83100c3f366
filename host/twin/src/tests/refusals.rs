//! The lowest applicable number, and none without its condition.

use super::tables::live;
use super::*;
use crate::Row;

const PEER: u64 = 9;

fn end_in(state: u8) -> End {
    let mut end = End::new(1, 0);
    end.record(0).copy_from_slice(&live(state));
    end
}

fn name_in(state: u8) -> [u64; 3] {
    [if state <= 4 { INITIATOR } else { RESPONDER }, PEER, 5]
}

#[test]
fn a_request_gives_the_lowest_number() {
    let mut end = end_in(2);
    end.table[8] = 5;
    end.table[0] = 100;
    assert_eq!(end.request(99, 256, 3, 0, &[0; 1025]).number, 2);
    assert_eq!(end.request(1_000_000_000_001, PEER, 0, 0, &[]).number, 2);
    assert_eq!(end.request(100, 256, 3, 0, &[0; 1025]).number, 3);
    assert_eq!(end.request(100, PEER, 3, 0, &[0; 1025]).number, 4);
    assert_eq!(end.request(100, PEER, 3, 0, &[]).number, 5);
    assert_eq!(end.request(100, PEER, 2, 0, &[]).number, 6);
    assert_eq!(end.request(100, PEER + 1, 0, 0, &[]).number, 6);
    end.table[8] = 6;
    assert_eq!(end.request(100, PEER, 2, 0, &[]).number, 7);
    assert_eq!(end.request(100, PEER, 0, 0, &[]).number, 0);
    end.table[10] = 9;
    assert_eq!(end.request(0, 256, 3, 0, &[0; 1025]).number, 1);
}

#[test]
fn a_responder_record_does_not_hold_gen_tid() {
    let mut end = end_in(7);
    end.table[8] = 5;
    assert_eq!(end.request(0, PEER, 0, 0, &[]).number, 0);
}

#[test]
fn exit_information_for_a_class_2_responder_is_4_in_every_state() {
    for (state, number) in [(1, 9), (2, 9), (3, 0), (4, 9), (5, 9), (6, 4), (7, 0), (8, 4), (9, 4), (10, 4), (11, 9)] {
        assert_eq!(end_in(state).answer(0, name_in(state), &[1]).number, number, "state {state}");
    }
}

#[test]
fn an_answer_is_allowed_in_three_states() {
    for state in 1..=11 {
        let number = if [3, 7, 8].contains(&state) { 0 } else { 9 };
        assert_eq!(end_in(state).answer(0, name_in(state), &[]).number, number, "state {state}");
    }
}

#[test]
fn a_result_is_allowed_in_two_states_of_a_class_2_responder() {
    for state in 1..=11 {
        let number = if [8, 9].contains(&state) { 0 } else { 9 };
        assert_eq!(end_in(state).result(0, name_in(state), &[]).number, number, "state {state}");
    }
}

#[test]
fn an_abort_is_not_allowed_before_the_invoke_was_shown() {
    for state in 1..=11 {
        let number = if [5, 6].contains(&state) { 9 } else { 0 };
        assert_eq!(end_in(state).abort(0, name_in(state), 0).number, number, "state {state}");
    }
}

#[test]
fn a_name_without_a_live_record_gives_8_after_3_and_4() {
    let mut end = end_in(8);
    for name in [[0, PEER, 5], [1, PEER, 6], [1, PEER, 0x8005], [1, PEER, 65_541], [2, PEER, 5], [u64::MAX, PEER, 5]] {
        assert_eq!(end.answer(0, name, &[1; 128]).number, 8, "{name:?}");
        assert_eq!(end.answer(0, name, &[1; 129]).number, 4, "{name:?}");
        assert_eq!(end.result(0, name, &[1; 1024]).number, 8, "{name:?}");
        assert_eq!(end.result(0, name, &[1; 1025]).number, 4, "{name:?}");
        assert_eq!(end.abort(0, name, 1).number, 8, "{name:?}");
    }
    assert_eq!(end.answer(0, [1, 256, 5], &[1; 129]).number, 3);
    assert_eq!(end.result(0, [1, 256, 5], &[1; 1025]).number, 3);
    assert_eq!(end.abort(0, [1, 256, 5], 1).number, 3);
}

#[test]
fn a_received_pdu_is_refused_for_its_length_alone() {
    let mut end = End::new(1, 0);
    assert_eq!(end.receive(0, 256, &[]).number, 3);
    assert_eq!(end.receive(0, PEER, &[]).number, 11);
    let mut long = vec![0; 1501];
    long[..3].copy_from_slice(&[0x0E, 0x80, 5]);
    assert_eq!(end.receive(0, PEER, &long).number, 11);
    assert_eq!(end.receive(0, PEER, &long[..1500]).row, Row::InvokeTheWrongWay);
}

#[test]
fn the_time_of_a_refused_call_is_not_kept_and_that_of_an_ignored_pdu_is() {
    let mut end = End::new(1, 0);
    assert_eq!(end.receive(50, PEER, &[]).number, 11);
    assert_eq!(end.receive(40, PEER, &[1]).number, 0);
    assert_eq!(end.timer(39).number, 2);
    assert_eq!(end.timer(40).number, 0);
}
