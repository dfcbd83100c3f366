//! Slices that are one element too short: number 1, whatever else is wrong, and nothing changes. (The engine's are in refusals.rs.)

use wtp::ffi::{self, ANSWER, DUE, FIELDS, OUTPUT, PART, SETTINGS};

const WRONG_SIZE: u64 = 1;
const INVOKE: [u8; 4] = [0x0E, 0, 5, 2];

#[test]
fn too_few_words_for_a_pdu_that_is_read() {
    let mut words = [7; FIELDS];
    assert_eq!(ffi::read(&INVOKE, &mut words[1..]), WRONG_SIZE);
    assert_eq!(words, [7; FIELDS]);
    assert_eq!(ffi::read(&INVOKE, &mut words), 0);
}

#[test]
fn too_few_words_for_a_part() {
    let mut part = [7; PART];
    assert_eq!(ffi::separate(&INVOKE, 0, &mut part[1..]), WRONG_SIZE);
    assert_eq!(part, [7; PART]);
    assert_eq!(ffi::separate(&INVOKE, 0, &mut part), 0);
}

#[test]
fn too_few_words_for_a_part_that_is_read() {
    let mut words = [7; FIELDS];
    assert_eq!(ffi::read_part(&[0, 0], 0, &mut words[1..]), WRONG_SIZE);
    assert_eq!(words, [7; FIELDS]);
    assert_eq!(ffi::read_part(&INVOKE, 0, &mut words), 0);
}

#[test]
fn too_few_words_or_too_short_an_output_for_data() {
    let mut answer = [0; ANSWER];
    answer[14] = 4;
    let mut out = [7; 4];
    assert_eq!(ffi::data(&INVOKE, &[], &answer[1..], 0, &mut out), WRONG_SIZE);
    assert_eq!(ffi::data(&INVOKE, &[], &answer, 0, &mut out[1..]), WRONG_SIZE);
    assert_eq!(out, [7; 4]);
    assert_eq!(ffi::data(&INVOKE, &[], &answer, 0, &mut out), 0);
    assert_eq!(out, INVOKE);
}

#[test]
fn too_few_words_for_a_deadline_or_another_size_of_the_table() {
    let mut settings = [0; SETTINGS];
    settings[2..22].fill(9);
    let mut table = [7; 800];
    assert_eq!(ffi::fresh(&mut table, &settings, 0), 0);
    let mut due = [7; DUE + 1];
    assert_eq!(ffi::deadline(&table, &mut due[..DUE - 1]), WRONG_SIZE);
    assert_eq!(ffi::deadline(&table[1..], &mut due), WRONG_SIZE);
    assert_eq!(ffi::deadline(&[], &mut due), WRONG_SIZE);
    assert_eq!(due, [7; DUE + 1]);
    assert_eq!(ffi::deadline(&table, &mut due), 0);
    assert_eq!(due, [0, 0, 0, 0, 0, 7]);
}

/// Whether a call with this output and this answer is refused for its sizes and leaves both.
fn refused(call: impl FnOnce(&mut [u8], &mut [u64]) -> u64, output: usize, answer: usize) -> bool {
    let (mut out, mut words) = (vec![7; output], vec![7; answer]);
    call(&mut out, &mut words) == WRONG_SIZE && out == vec![7; output] && words == vec![7; answer]
}

#[test]
fn too_few_fields_too_short_an_output_or_an_answer_for_a_pdu_that_is_written() {
    let write = |fields| move |out: &mut [u8], answer: &mut [u64]| ffi::write(&vec![0; fields], &INVOKE, out, answer);
    assert!(refused(write(FIELDS - 1), OUTPUT, ANSWER));
    assert!(refused(write(FIELDS), OUTPUT - 1, ANSWER));
    assert!(refused(write(FIELDS), OUTPUT, ANSWER - 1));
    assert!(!refused(write(FIELDS), OUTPUT, ANSWER));
}

#[test]
fn too_short_an_output_or_an_answer_for_pdus_that_are_joined() {
    let join = |out: &mut [u8], answer: &mut [u64]| ffi::join(&INVOKE, &[4], out, answer);
    assert!(refused(join, OUTPUT - 1, ANSWER));
    assert!(refused(join, OUTPUT, ANSWER - 1));
    assert!(!refused(join, OUTPUT, ANSWER));
}
