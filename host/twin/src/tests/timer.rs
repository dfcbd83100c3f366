//! The timer call in two: the earliest deadline, and the firing of a record that is named.

use super::tables::live;
use super::*;
use crate::Row;

/// A record of this state whose deadline is 1, at the clock 0.
fn due_in(state: u8) -> End {
    let mut end = End::new(1, 0);
    end.record(0).copy_from_slice(&live(state));
    end.record(0)[8] = 1;
    end
}

#[test]
fn the_example_of_the_reading() {
    let mut end = End::of_the_reading(3, 5);
    end.request(1_000, 7, 2, 0, &[]);
    end.request(1_000, 8, 1, 0, &[1]);
    end.request(1_000, 9, 1, 0, &[2]);
    assert_eq!(end.deadline(), Ok([1, 1_050, 0, 8, 6]));
    assert_eq!(end.fire(1_049, [INITIATOR, 9, 7]).row, Row::FireNotDue);
    assert_eq!(end.fire(1_050, [INITIATOR, 9, 9]).number, 8);
    assert_eq!(end.fire(1_050, [INITIATOR, 256, 9]).number, 3);
    assert_eq!(end.fire(1_050, [INITIATOR, 9, 7]).number, 0);
    assert_eq!((end.sent(), end.answer[3], end.answer[28..31].to_vec()), (vec![0x0F, 0, 7, 1, 2], 1, vec![0, 9, 7]));
    assert_eq!(end.fire(1_160, [INITIATOR, 7, 5]).number, 0);
    assert_eq!(end.sent(), [0x0F, 0, 5, 0x22]);
    assert_eq!(end.timer(1_160).number, 0);
    assert_eq!((end.sent(), end.answer[28..31].to_vec()), (vec![0x0F, 0, 6, 1, 1], vec![0, 8, 6]));
    assert_eq!(end.deadline(), Ok([1, 1_110, 0, 9, 7]));
}

#[test]
fn without_a_deadline_all_words_are_0() {
    let mut end = End::new(1, 5);
    assert_eq!(end.deadline(), Ok([0; 5]));
    end.request(0, 7, 2, 0, &[]);
    end.receive(1, 7, &[0x18, 0x80, 5]);
    assert_eq!(end.deadline(), Ok([0; 5]), "held on");
    assert_eq!(end.fire(2, [INITIATOR, 7, 5]).row, Row::FireNoDeadline);
}

#[test]
fn a_deadline_past_the_bound_of_times_is_told_and_never_due() {
    let mut end = End::new(1, 5);
    end.request(1_000_000_000_000, 7, 1, 0, &[]);
    assert_eq!(end.deadline(), Ok([1, 1_000_000_001_000, 0, 7, 5]));
    assert_eq!(end.fire(1_000_000_000_000, [INITIATOR, 7, 5]).row, Row::FireNotDue);
    assert_eq!(end.fire(1_000_000_001_000, [INITIATOR, 7, 5]).number, 2);
}

#[test]
fn a_damaged_table_or_too_few_words_are_refused() {
    let mut end = due_in(2);
    assert_eq!(crate::deadline(&end.table[1..], &mut [7; 5]).number, 1);
    assert_eq!(crate::deadline(&end.table, &mut [7; 4]).number, 1);
    end.record(0)[6] = 32;
    assert_eq!(end.deadline(), Err(1));
}

#[test]
fn firing_gives_the_lowest_number() {
    let mut end = due_in(2);
    end.table[0] = 1;
    assert_eq!(end.fire(0, [2, 256, 5]).number, 2);
    assert_eq!(end.fire(1, [2, 256, 5]).number, 3);
    for name in [[2, 9, 5], [u64::MAX, 9, 5], [1, 9, 5], [0, 9, 0x8005], [0, 9, 65_541], [0, 8, 5]] {
        assert_eq!(end.fire(1, name).number, 8, "{name:?}");
    }
    assert_eq!(end.fire(1, [INITIATOR, 9, 5]).number, 0);
    end.table[10] = 9;
    assert_eq!(end.fire(0, [2, 256, 5]).number, 1);
}

#[test]
fn the_timer_is_the_two_calls_together_in_every_state() {
    for state in 1..=11 {
        let (mut whole, mut in_two) = (due_in(state), due_in(state));
        let row = whole.timer(1).row;
        let [any, _, role, peer, tid] = in_two.deadline().unwrap();
        assert_eq!(any, 1);
        assert_eq!(in_two.fire(1, [role, peer, tid]).row, row);
        assert_eq!(whole, in_two, "state {state}");
    }
}
