//! The data of an indication, copied from the datagram or the store.

use wtp::ffi::{self, ANSWER};

const DATAGRAM: [u8; 3] = [1, 2, 3];
const STORE: [u8; 4] = [4, 5, 6, 7];

/// An answer whose first indication names this part, and whose second the store's last octet.
fn answer(source: u64, start: u64, length: u64) -> [u64; ANSWER] {
    let mut words = [0; ANSWER];
    words[12..15].copy_from_slice(&[source, start, length]);
    words[24..27].copy_from_slice(&[1, 3, 1]);
    words
}

/// The number, and the output of five octets that were 9.
fn copied(answer: &[u64], k: u64) -> (u64, [u8; 5]) {
    let mut out = [9; 5];
    (ffi::data(&DATAGRAM, &STORE, answer, k, &mut out), out)
}

#[test]
fn the_named_part_of_the_named_slice_is_copied_and_the_rest_stays() {
    assert_eq!(copied(&answer(0, 1, 2), 0), (0, [2, 3, 9, 9, 9]));
    assert_eq!(copied(&answer(1, 0, 4), 0), (0, [4, 5, 6, 7, 9]));
    assert_eq!(copied(&answer(0, 1, 2), 1), (0, [7, 9, 9, 9, 9]));
}

#[test]
fn no_data_is_copied_as_none() {
    assert_eq!(copied(&answer(0, 0, 0), 0), (0, [9; 5]));
    assert_eq!(copied(&answer(0, 3, 0), 0), (0, [9; 5]));
}

#[test]
fn data_that_is_not_there_whole_and_a_third_indication_are_number_11() {
    for (source, start, length) in [(0, 1, 3), (0, 4, 1), (1, 0, 5), (1, u64::MAX, 1), (0, u64::MAX, 5)] {
        assert_eq!(copied(&answer(source, start, length), 0), (11, [9; 5]));
    }
    assert_eq!(copied(&answer(0, 1, 2), 2), (11, [9; 5]));
    assert_eq!(copied(&answer(0, 1, 2), u64::MAX), (11, [9; 5]));
}

#[test]
fn an_output_shorter_than_the_data_is_number_1() {
    assert_eq!(copied(&answer(1, 0, 6), 0), (1, [9; 5]));
    assert_eq!(copied(&answer(1, 1, u64::MAX), 0), (1, [9; 5]));
}
