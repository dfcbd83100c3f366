//! A table damaged one octet at a time, every octet with each of its other values: how many the library refuses, for each field,
//! in the timer call and where it is asked for the earliest deadline.

mod compared;
mod damaged;

use compared::compare;
use damaged::{fields, fresh, with_highest_cost, RECORDS};
use kit::layout::{self, CELL, LAST_TIME};
use wtp::ffi::{self, Lent};

/// A call that judges the table, and its number; it takes a time or it doesn't.
type Judge = fn(Lent, u64) -> u64;

/// Two initiator records in RESULT WAIT of class 2, with TID 0, for the peers 0 and 1.
fn with_two_live(mut table: Vec<u8>) -> Vec<u8> {
    (0..RECORDS).for_each(|place| layout::STATE.of_record(place).set(&mut table, 2));
    layout::PEER.of_record(1).set(&mut table, 1);
    table
}

/// The first of two live records has sent its Invoke with TIDnew, the second is a responder's in INVOKE RESP WAIT of class 2.
fn of_either_role(mut table: Vec<u8>) -> Vec<u8> {
    layout::FLAGS.of_record(0).set(&mut table, 16);
    layout::STATE.of_record(1).set(&mut table, 8);
    table
}

/// The shortest waiting limit, and in the first record the longest in force.
fn with_waiting_limit(mut table: Vec<u8>) -> Vec<u8> {
    layout::WAITING_LIMIT.set(&mut table, 1);
    layout::MODES.set(&mut table, 1);
    layout::LIMIT.of_record(0).set(&mut table, layout::LONGEST);
    table
}

/// The identities of unknown items at either end of their range.
fn with_unknown_items(mut table: Vec<u8>) -> Vec<u8> {
    layout::UNKNOWN.of_record(0).set(&mut table, layout::UNKNOWN.least);
    layout::UNKNOWN.of_record(1).set(&mut table, layout::UNKNOWN.most);
    table
}

/// How many tables that differ from this one in this octet aren't well formed. The last time that there is lies below no
/// clock in range, so that the others are accepted.
fn refused(judge: Judge, table: &[u8], at: usize) -> usize {
    let (mut store, mut out, mut answer) = ([0; CELL * RECORDS], [0; ffi::SENDING], [0; ffi::ANSWER]);
    // An accepted call changes its table.
    let mut damaged = table.to_vec();
    let numbers = (0..=255).map(|value| {
        damaged.copy_from_slice(table);
        damaged[at] = value;
        judge(Lent { table: &mut damaged, store: &mut store, out: &mut out, answer: &mut answer }, LAST_TIME)
    });
    numbers.filter(|number| *number == 1).count()
}

fn told(judge: Judge, table: &[u8]) -> String {
    let fields = fields();
    let each = fields.iter().zip(&fields[1..]);
    each.map(|(from, to)| {
        let refused: usize = (*from..*to).map(|at| refused(judge, table, at)).sum();
        format!("octets {from} to {to}: {refused} changes refused\n")
    })
    .collect()
}

fn all_told(judge: Judge) -> String {
    let free = fresh();
    let live = with_two_live(free.clone());
    let either = of_either_role(live.clone());
    let limited = with_waiting_limit(either.clone());
    let unknown = with_unknown_items(limited.clone());
    let costly = with_highest_cost(unknown.clone());
    let tables = [
        ("a fresh table of two records", free),
        ("the same with both records live", live),
        ("an initiator whose Invoke carries TIDnew, and a responder", either),
        ("the same with a waiting limit of 1, the first record with the longest in force", limited),
        ("the same with the identity of an unknown item in both records", unknown),
        ("the same with the highest cost in the first record", costly),
    ];
    tables.iter().map(|(title, table)| format!("{title}\n{}", told(judge, table))).collect()
}

#[test]
fn damage_that_is_let_through_is_not_counted() {
    let blind = |lent: Lent, now| {
        lent.table[layout::SPARE] = 0;
        ffi::timer(lent, now)
    };
    let counted: Vec<usize> = [ffi::timer as Judge, blind].iter().map(|judge| refused(*judge, &fresh(), layout::SPARE)).collect();
    assert_eq!(counted, [255, 0]);
}

#[test]
fn the_timer_refuses_the_damage_that_document_01_says() {
    compare(&all_told(ffi::timer), "damage/expected.txt");
}

#[test]
fn no_deadline_is_told_of_a_damaged_table() {
    compare(&all_told(|lent, _| ffi::deadline(lent.table, lent.answer)), "damage/expected.txt");
}
