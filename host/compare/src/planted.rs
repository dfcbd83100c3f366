//! Plants differences in a side and looks whether they are found.

use crate::buffers::Buffers;
use crate::calls::{Call, Kind};
use crate::differences::Place;
use crate::pair::{End, Found, Pair};
use crate::session::play_all;
use crate::sides::{library, Said, Side};
use kit::{layout, Random};

fn played(seed: u64, calls: u64, twin: Side) -> (Pair, End) {
    played_on([library, twin], seed, calls)
}

fn played_on(sides: [Side; 2], seed: u64, calls: u64) -> (Pair, End) {
    let mut pair = Pair::new(sides, calls);
    let end = play_all(&mut Random::new(seed), &mut pair);
    (pair, end)
}

fn found(twin: Side) -> Found {
    found_on([library, twin])
}

fn found_on(sides: [Side; 2]) -> Found {
    match played_on(sides, 1, 20_000).1 {
        End::Different(found) => *found,
        End::Enough => panic!("no difference was found"),
    }
}

/// The library, but with a store that a timer call has changed.
fn changed_by_a_firing(call: &Call, buffers: &mut Buffers) -> Said {
    let said = library(call, buffers);
    if matches!(call.kind, Kind::Timer { .. }) && said.number == 0 && buffers.words[3] == 1 {
        buffers.store[1023] ^= 1;
    }
    said
}

/// The library, but with a later deadline.
fn told_late(call: &Call, buffers: &mut Buffers) -> Said {
    let said = library(call, buffers);
    if call.kind == Kind::Deadline && said.number == 0 && buffers.words[0] == 1 {
        buffers.words[1] += 1;
    }
    said
}

/// The library, but a deadline is told with another TID.
fn told_of_another(call: &Call, buffers: &mut Buffers) -> Said {
    let said = library(call, buffers);
    if call.kind == Kind::Deadline && said.number == 0 && buffers.words[0] == 1 {
        buffers.words[4] ^= 1 << 15;
    }
    said
}

/// The library, but of two records with one name the higher place stays.
fn keeps_the_highest(call: &Call, buffers: &mut Buffers) -> Said {
    let before = buffers.table.clone();
    let said = library(call, buffers);
    if call.kind == Kind::Salvage && said.number == 0 && buffers.words[0] == 1 && buffers.words[2] == 3 {
        let freed = layout::table_bytes(buffers.words[1] as usize);
        buffers.table[freed..freed + layout::RECORD].copy_from_slice(&before[freed..freed + layout::RECORD]);
        buffers.table[layout::HEADER..freed].fill(0);
    }
    said
}

/// The library, but an octet of the exit information of a freed record stays.
fn frees_not_all(call: &Call, buffers: &mut Buffers) -> Said {
    let before = buffers.table.clone();
    let said = library(call, buffers);
    if call.kind == Kind::Salvage && said.number == 0 && buffers.words[0] != 0 {
        let last = layout::table_bytes(buffers.words[1] as usize) + layout::RECORD - 1;
        buffers.table[last] = before[last];
    }
    said
}

/// The library, but salvage accepts every table and changes nothing.
fn salvages_nothing(call: &Call, buffers: &mut Buffers) -> Said {
    let before = buffers.table.clone();
    let said = library(call, buffers);
    if call.kind == Kind::Salvage && said.number == 0 {
        buffers.table = before;
        buffers.words[..wtp::ffi::SALVAGED].fill(0);
    }
    said
}

/// The library, but salvage lists a place that it didn't change.
fn lists_too_much(call: &Call, buffers: &mut Buffers) -> Said {
    let said = library(call, buffers);
    if call.kind == Kind::Salvage && said.number == 0 && buffers.words[0] == 0 {
        buffers.words[..3].copy_from_slice(&[1, 0, 2]);
    }
    said
}

/// The library, but a firing doesn't store its time.
fn fired_without_its_time(call: &Call, buffers: &mut Buffers) -> Said {
    let clock = layout::CLOCK.get(&buffers.table);
    let said = library(call, buffers);
    if matches!(call.kind, Kind::Fire { .. }) && said.number == 0 {
        layout::CLOCK.set(&mut buffers.table, clock);
    }
    said
}

/// The library, but the place of an unknown item is that of its data.
fn told_where_its_data_starts(call: &Call, buffers: &mut Buffers) -> Said {
    let said = library(call, buffers);
    if matches!(call.kind, Kind::Receive { .. }) && said.number == 0 && buffers.words[34] != 0 {
        buffers.words[35] += 1;
    }
    said
}

/// The library, but an ignored PDU tells no cost.
fn costs_nothing_where_ignored(call: &Call, buffers: &mut Buffers) -> Said {
    let before = buffers.table.clone();
    let said = library(call, buffers);
    let changed = before[layout::HEADER..] != buffers.table[layout::HEADER..];
    if matches!(call.kind, Kind::Receive { .. }) && said.number == 0 && !changed && buffers.words[0] == 0 {
        buffers.words[32] = 0;
    }
    said
}

/// The library, but the Abort that a user's abort sends is counted.
fn counts_the_abort(call: &Call, buffers: &mut Buffers) -> Said {
    let said = library(call, buffers);
    if matches!(call.kind, Kind::Abort { .. }) && said.number == 0 && buffers.words[33] == 1 {
        buffers.words[32] += buffers.words[0];
    }
    said
}

/// The library, but a request that ends by its timer isn't reported.
fn ends_unreported(call: &Call, buffers: &mut Buffers) -> Said {
    let said = library(call, buffers);
    if matches!(call.kind, Kind::Timer { .. }) && said.number == 0 {
        buffers.words[33] = 0;
    }
    said
}

/// The library, but a record that pays keeps one octet too few.
fn keeps_too_little(call: &Call, buffers: &mut Buffers) -> Said {
    let said = library(call, buffers);
    let field = layout::COST.of_record(0);
    if matches!(call.kind, Kind::Request { .. }) && said.number == 0 && field.get(&buffers.table) > 0 {
        let kept = field.get(&buffers.table);
        field.set(&mut buffers.table, kept - 1);
    }
    said
}

fn refused_with_another_number(call: &Call, buffers: &mut Buffers) -> Said {
    let said = library(call, buffers);
    Said { number: if said.number == 7 { 6 } else { said.number }, ..said }
}

fn panics_at_a_long_pdu(call: &Call, buffers: &mut Buffers) -> Said {
    assert!(call.octets.len() <= 1500, "too long");
    library(call, buffers)
}

#[test]
fn the_library_is_the_same_as_itself_for_all_calls_asked_for() {
    let (pair, end) = played(1, 500, library);
    assert!(matches!(end, End::Enough));
    assert_eq!(pair.tally.calls, 500);
}

#[test]
fn a_changed_octet_is_found_at_the_call_that_changed_it() {
    let found = found(changed_by_a_firing);
    assert!(found.call.starts_with("timer: "));
    assert_eq!(found.difference.place, Place::Store(1023));
}

#[test]
fn another_word_of_a_deadline_is_found() {
    let found = found(told_late);
    assert!(found.call.starts_with("deadline\n"));
    assert_eq!(found.difference.place, Place::Word(1));
}

#[test]
fn another_place_of_an_unknown_item_is_found() {
    let found = found(told_where_its_data_starts);
    assert!(found.call.starts_with("receive: "));
    assert_eq!(found.difference.place, Place::Word(35));
}

#[test]
fn another_cost_or_end_is_found() {
    let wrong = [
        (costs_nothing_where_ignored as Side, 32, "receive: "),
        (counts_the_abort, 32, "abort: "),
        (ends_unreported, 33, "timer: "),
    ];
    for (wrong, word, call) in wrong {
        let found = found(wrong);
        assert!(found.call.starts_with(call));
        assert_eq!(found.difference.place, Place::Word(word));
    }
}

#[test]
fn another_cost_that_is_kept_is_found() {
    let found = found(keeps_too_little);
    assert!(found.call.starts_with("request: "));
    let octets = layout::table_bytes(0) + layout::COST.at;
    assert!(matches!(found.difference.place, Place::Table(at) if (octets..octets + layout::COST.octets).contains(&at)));
}

#[test]
fn two_calls_that_differ_from_the_timer_are_found_where_both_sides_have_them() {
    let found = found_on([fired_without_its_time; 2]);
    assert!(found.call.starts_with("fire: "));
    assert!(matches!(found.difference.place, Place::Table(0..=7)), "{}", found.difference.told(found.names));
    let found = found_on([told_of_another; 2]);
    assert_eq!(found.difference.told(found.names), "the number: in one call 0 (hex 0), in two 8 (hex 8)");
}

#[test]
fn a_wrong_salvage_is_found() {
    for (wrong, place) in [(keeps_the_highest as Side, "table"), (frees_not_all, "table"), (lists_too_much, "word 0")] {
        let found = found(wrong);
        assert!(found.call.starts_with("salvage\n"));
        assert!(found.difference.told(found.names).contains(place), "{}", found.difference.told(found.names));
    }
}

#[test]
fn a_salvage_that_leaves_damage_or_lists_again_is_found_where_both_sides_have_it() {
    assert_eq!(found_on([lists_too_much; 2]).names, ["salvaged once", "salvaged twice"]);
    assert_eq!(found_on([frees_not_all; 2]).names, ["salvaged once", "salvaged twice"]);
    let found = found_on([salvages_nothing; 2]);
    assert_eq!(found.difference.told(found.names), "the number: a well-formed table 0 (hex 0), a salvaged one 1 (hex 1)");
}

#[test]
fn another_number_is_found() {
    let found = found(refused_with_another_number);
    assert!(found.call.starts_with("request: "));
    assert_eq!(found.difference.values, [7, 6]);
}

#[test]
fn a_panic_is_told_as_a_difference() {
    let found = found(panics_at_a_long_pdu);
    assert!(found.difference.told(found.names).ends_with("twin a panic"));
}

#[test]
fn a_difference_comes_again_at_the_same_call_and_not_before() {
    let number = found(changed_by_a_firing).number;
    assert!(matches!(played(1, number, changed_by_a_firing).1, End::Different(_)));
    assert!(matches!(played(1, number - 1, changed_by_a_firing).1, End::Enough));
}

#[test]
fn a_seed_gives_the_same_calls_again_and_another_seed_gives_others() {
    let run = |seed| {
        let (pair, _) = played(seed, 300, library);
        let [library, _] = pair.buffers;
        (library.table, library.store, pair.tally.to_string())
    };
    assert_eq!(run(1), run(1));
    assert_ne!(run(1), run(2));
}
