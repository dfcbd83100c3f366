//! Engines and codecs with a planted error, each of which must be told; and lines that are no command.

use crate::call::{library, Engine, Event, Salvage};
use crate::codec::{Case, Codec, LIBRARY};
use crate::player::{play, play_on};
use kit::layout::STATE;
use wtp::ffi::{self, Lent, ANSWER, SALVAGED};

const START: &str = "# a table of two records\nfresh 0 2 7\n";

/// What the line gives on this engine.
fn given(engine: Engine, line: &str) -> String {
    given_on(engine, ffi::salvage, line)
}

fn given_on(engine: Engine, salvage: Salvage, line: &str) -> String {
    let mut told = String::new();
    play_on(engine, salvage, &format!("{START}{line}\n"), &mut told).unwrap();
    told.trim_end().rsplit_once(line).unwrap().1.to_string()
}

/// Accepts, with an answer of zeros.
fn accept(lent: &mut Lent) {
    lent.answer[..ANSWER].fill(0);
}

fn refuses_and_changes(_: Event, _: u64, _: &[u8], lent: Lent) -> u64 {
    lent.store[1] = 1;
    2
}

fn writes_past_the_pdu(_: Event, _: u64, _: &[u8], mut lent: Lent) -> u64 {
    accept(&mut lent);
    lent.answer[0] = 3;
    lent.out[..4].copy_from_slice(&[0x18, 0x80, 7, 0]);
    0
}

fn writes_odd_words(_: Event, _: u64, _: &[u8], mut lent: Lent) -> u64 {
    accept(&mut lent);
    lent.answer[2] = 9;
    lent.answer[31] = 1;
    lent.answer[34] = 6;
    lent.answer[39] = 1;
    lent.answer[ANSWER] = 0;
    0
}

/// A place without an identity.
fn tells_a_place_alone(_: Event, _: u64, _: &[u8], mut lent: Lent) -> u64 {
    accept(&mut lent);
    lent.answer[35] = 4;
    0
}

/// An end that is neither.
fn tells_an_odd_end(_: Event, _: u64, _: &[u8], mut lent: Lent) -> u64 {
    accept(&mut lent);
    lent.answer[32] = 17;
    lent.answer[33] = 2;
    0
}

/// An end of a transaction that cost nothing.
fn tells_an_end_alone(_: Event, _: u64, _: &[u8], mut lent: Lent) -> u64 {
    accept(&mut lent);
    lent.answer[33] = 1;
    0
}

fn changes_two_records(_: Event, _: u64, _: &[u8], mut lent: Lent) -> u64 {
    accept(&mut lent);
    STATE.of_record(0).set(lent.table, 2);
    STATE.of_record(1).set(lent.table, 12);
    0
}

fn points_past_the_store(_: Event, _: u64, _: &[u8], mut lent: Lent) -> u64 {
    accept(&mut lent);
    lent.answer[1] = 1;
    lent.answer[4..15].copy_from_slice(&[3, 0, 5, 7, 0, 0, 0, 0, 1, 1 << 40, 2]);
    0
}

/// A deadline that stores a time, writes a word too many, and tells of a record where there is none.
fn tells_and_changes(_: Event, _: u64, _: &[u8], lent: Lent) -> u64 {
    lent.table[0] = 1;
    lent.answer[..6].copy_from_slice(&[0, 0, 0, 8, 0, 0]);
    0
}

#[test]
fn a_deadline_that_changes_something_or_has_odd_words_is_told() {
    assert_eq!(given(tells_and_changes, "due 0"), ": ok; none; word 3 is 8; changed word 5; MORE THAN THE WORDS CHANGED");
    assert_eq!(given(refuses_and_changes, "due 0"), ": refused 2; A REFUSED CALL CHANGED SOMETHING");
}

/// Lists two places, changes a third and the header, and writes a word too many.
fn salvages_too_much(table: &mut [u8], list: &mut [u64]) -> u64 {
    table[0] = 1;
    STATE.of_record(1).set(table, 2);
    list.fill(0);
    list[..6].copy_from_slice(&[2, 0, 1, 1, 3, 9]);
    0
}

fn refuses_and_lists(_: &mut [u8], list: &mut [u64]) -> u64 {
    list[0] = 0;
    15
}

#[test]
fn a_salvage_that_changes_too_much_or_lists_odd_words_is_told() {
    let odd = "; 2 salvaged, place 0 reason 1, place 1 reason 3; word 5 is 9; changed word 97; MORE THAN THE RECORDS CHANGED";
    assert_eq!(given_on(library, salvages_too_much, "sal 0 98"), format!(": ok {{1: Free -> IResultWait2}}{odd}"));
    assert_eq!(given_on(library, refuses_and_lists, "sal 0 97"), ": refused 15; A REFUSED CALL CHANGED SOMETHING");
    let longest = |_: &mut [u8], list: &mut [u64]| {
        list[..SALVAGED].fill(1);
        list[0] = u64::MAX;
        0
    };
    assert!(given_on(library, longest, "sal 0 97").ends_with(", place 1 reason 1"));
}

#[test]
fn a_refused_call_that_changes_something_is_told() {
    assert_eq!(given(refuses_and_changes, "tim 0 10"), ": refused 2; A REFUSED CALL CHANGED SOMETHING");
}

#[test]
fn an_output_changed_past_the_pdu_is_told() {
    assert_eq!(given(writes_past_the_pdu, "rcv 0 10 5 /18"), ": ok; sent 188007; OUTPUT CHANGED PAST THE PDU");
}

#[test]
fn words_that_should_be_zero_or_untouched_are_told() {
    let told = ": ok; word 2 is 9; none due; word 34 is 6; word 31 is 1; word 39 is 1; changed word 40";
    assert_eq!(given(writes_odd_words, "tim 0 10"), told);
    let told = ": ok; word 2 is 9; unknown 6 at 0; word 31 is 1; word 39 is 1; changed word 40";
    assert_eq!(given(writes_odd_words, "rcv 0 10 5 /18"), told);
    assert_eq!(given(tells_a_place_alone, "rcv 0 10 5 /18"), ": ok; word 35 is 4");
    assert_eq!(given(tells_an_odd_end, "rcv 0 10 5 /18"), ": ok; word 32 is 17; word 33 is 2");
    assert_eq!(given(tells_an_end_alone, "rcv 0 10 5 /18"), ": ok; cost 0, ended");
}

#[test]
fn every_record_that_changed_is_told() {
    assert_eq!(given(changes_two_records, "tim 0 10"), ": ok {0: Free -> IResultWait2, 1: Free -> state 12}; none due");
}

#[test]
fn data_that_lie_nowhere_are_told() {
    assert!(given(points_past_the_store, "rcv 0 10 5 /18").ends_with(" store 1099511627776+2 WHICH ISN'T THERE"));
}

#[test]
fn a_codec_that_changes_something_where_it_refuses_is_told() {
    let read = |_: &[u8], fields: &mut [u64]| {
        fields[87] = 0;
        102
    };
    let join = |_: &[u8], _: &[u64], out: &mut [u8], _: &mut [u64]| {
        out[0] = 0;
        11
    };
    let codec = Codec { read, join, ..LIBRARY };
    assert_eq!(codec.told(&Case::Read(vec![0])).unwrap(), ": D2; A REFUSED CALL CHANGED SOMETHING");
    let case = Case::Join { lengths: vec![], octets: vec![] };
    assert_eq!(codec.told(&case).unwrap(), ": refused 11; A REFUSED CALL CHANGED SOMETHING");
}

#[test]
fn output_past_the_octets_and_odd_words_are_told() {
    let write = |_: &[u64], _: &[u8], out: &mut [u8], answer: &mut [u64]| {
        out[..4].copy_from_slice(&[0x18, 0x80, 5, 0]);
        answer.fill(0);
        answer[0] = 3;
        answer[31] = 9;
        0
    };
    let join = |_: &[u8], _: &[u64], _: &mut [u8], answer: &mut [u64]| {
        answer.fill(0);
        answer[0] = 1501;
        0
    };
    let codec = Codec { write, join, ..LIBRARY };
    let case = Case::Write { words: vec![(0, 3), (4, 5)], octets: vec![] };
    assert_eq!(codec.told(&case).unwrap(), ": ok 188005; word 31 is 9; OUTPUT CHANGED PAST THE OCTETS");
    let case = Case::Join { lengths: vec![1], octets: vec![7] };
    assert_eq!(codec.told(&case).unwrap(), ": ok; too many: 1501");
}

#[test]
fn words_that_reading_leaves_and_parts_that_are_nowhere_are_told() {
    let read = |_: &[u8], fields: &mut [u64]| {
        fields[..87].fill(0);
        0
    };
    let separate = |_: &[u8], k: u64, part: &mut [u64]| {
        part.copy_from_slice(&[k, 2, 2]);
        0
    };
    let codec = Codec { read, separate, ..LIBRARY };
    assert_eq!(codec.told(&Case::Read(vec![0])).unwrap(), ": ok 87=77 ->: D2");
    assert_eq!(codec.told(&Case::Separate(vec![7, 7])).unwrap(), ": ok 0707: ok PART 1 ISN'T THERE");
}

#[test]
fn a_line_that_is_no_command_is_named() {
    for (line, wrong) in [
        ("reg 0 10", "there is no command \"reg\""),
        ("tim 2 10", "END can't be 2"),
        ("tim 0", "TIME is missing"),
        ("tim 0 10 5", "\"5\" is too much"),
        ("fir 0 10 0 5", "TID is missing"),
        ("due 0 10", "\"10\" is too much"),
        ("sal 0", "WORDS is missing"),
        ("copy 0 0 2", "there is no place 2"),
        ("fill 0 2 0", "there is no place 2"),
        ("fill 0 0 256", "VALUE can't be \"256\""),
        ("tim 0 -1", "TIME can't be \"-1\""),
        ("rcv 0 10 5 18", "/OCTETS can't be \"18\""),
        ("abo 0 10 0 5 7 256", "REASON can't be \"256\""),
        ("set 40=1", "there is no setting 40"),
        ("set 1", "N=V can't be \"1\""),
        ("set 1=1 /", "\"/\" is too much"),
        ("lend 1 2", "OUT is missing"),
        ("put 0 9248 0", "there is no octet 9248"),
        ("look 1", "there is no table of 0 records"),
        ("r /18", "OCTETS can't be \"/18\""),
        ("s 00 03", "\"03\" is too much"),
        ("w 0=3 18", "N=V can't be \"18\""),
        ("w 0=3", "/OCTETS is missing"),
        ("w 88=0 /", "there is no word 88"),
        ("j 3 x /188005", "N can't be \"x\""),
    ] {
        let mut told = String::new();
        assert_eq!(play(&format!("{START}{line}"), &mut told), Err(format!("line 3: {wrong}")), "{line}");
        assert_eq!(told, START.replace("7\n", "7: ok\n"), "what comes before it is told");
    }
}
