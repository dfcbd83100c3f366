//! Plants differences in a side and looks whether they are found.

use super::call::{Call, Kind};
use super::pair::{Buffers, Pair};
use super::session::play_all;
use super::sides::{library, Side};
use kit::Random;
use rds_twin::Said;

fn found(twin: Side) -> String {
    play_all(&mut Random::new(1), &mut Pair::new([library, twin]), 20_000).expect_err("no difference was found")
}

/// The library, but a release leaves the port's format.
fn changed_by_a_release(call: &Call, buffers: &mut Buffers) -> Said {
    let said = library(call, buffers);
    if matches!(call.kind, Kind::Receive) && said.number == 0 && buffers.words[1..3] == [1, 2] && buffers.words[7] == 1 {
        buffers.book[2 + 276 * buffers.words[4] as usize + 3] = 1;
    }
    said
}

fn another_word_of_a_frame(call: &Call, buffers: &mut Buffers) -> Said {
    let said = library(call, buffers);
    if matches!(call.kind, Kind::Read { .. }) && said.number == 0 && buffers.words[22] > 0 {
        buffers.words[24] ^= 1;
    }
    said
}

fn panics_at_a_long_frame(call: &Call, buffers: &mut Buffers) -> Said {
    assert!(call.octets.len() <= 1_500, "too long");
    library(call, buffers)
}

#[test]
fn a_changed_octet_is_found_at_the_call_that_changed_it() {
    let found = found(changed_by_a_release);
    assert!(found.contains(": Receive\n") && found.contains("  octet of the book "), "{found}");
}

#[test]
fn another_word_is_found() {
    let found = found(another_word_of_a_frame);
    assert!(found.contains(": Read {") && found.contains("  word 24: library "), "{found}");
}

#[test]
fn a_panic_is_told_as_a_difference() {
    assert!(found(panics_at_a_long_frame).contains("twin a panic"));
}
