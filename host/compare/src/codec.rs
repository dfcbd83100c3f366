//! Draws calls of the codec: PDUs to read, and fields to write that were read, as they are or changed.

use crate::calls::{Call, Kind};
use crate::pdus;
use kit::Random;
use wtp::ffi::FIELDS;

/// Where the words of the items begin.
const ITEM: u64 = 24;
/// Place and value of a word at the edge of its range, whatever the type: type, TID, items, the words of an unknown item, which may have
/// any value, spare words, the first item's words.
const EDGES: [(usize, u64); 12] = [
    (0, 8),
    (4, 65_536),
    (15, 16),
    (15, 17),
    (15, 17),
    (18, u64::MAX),
    (19, u64::MAX),
    (20, 1),
    (24, 16),
    (25, 2),
    (27, 4),
    (27, 256),
];
/// The same for an Invoke, for an Abort, for a Nack, and for each type that has no user data.
const INVOKE_EDGES: [(usize, u64); 4] = [(5, 4), (8, 3), (8, 3), (8, 4)];
const ABORT_EDGES: [(usize, u64); 4] = [(10, 2), (10, 7), (10, 8), (11, 256)];
const NACK_EDGES: [(usize, u64); 3] = [(13, 0), (14, 1500), (13, 256)];
const NO_DATA_EDGES: [(usize, u64); 3] = [(17, 1), (17, 1), (16, 1)];

/// A PDU to be read, damaged now and then.
pub fn draw_read(random: &mut Random, call: &mut Call) {
    call.kind = Kind::Read;
    call.octets.clear();
    call.words.clear();
    let kind = if random.percent(97) { 1 + random.below(7) } else { random.below(16) };
    let tid = (random.word() >> 48) as u16;
    pdus::build(random, kind as u8, tid, &mut call.octets);
    if random.percent(30) {
        pdus::damage(random, &mut call.octets);
    }
}

/// The fields that were read, to be written with the same octets; most of them changed first, or the octets cut short.
pub fn draw_write(random: &mut Random, fields: &[u64], call: &mut Call) {
    call.kind = Kind::Write;
    call.words.clear();
    call.words.extend(fields.iter().take(FIELDS));
    if random.percent(70) {
        let changes = random.of(&[1, 1, 1, 2, 2, 3]);
        (0..changes).for_each(|_| change_word(random, &mut call.words, call.octets.len() as u64));
    }
    if random.percent(8) {
        let kept = random.place(call.octets.len());
        call.octets.truncate(kept);
    }
    if random.percent(2) {
        let count = random.of(&[0, 1, FIELDS - 1, FIELDS + 1]);
        call.words.resize(count, 0);
    }
}

fn change_word(random: &mut Random, words: &mut [u64], octets: u64) {
    let at = changed_place(random, words);
    let value = new_value(random, octets);
    let (at, change) = match random.below(10) {
        0..=4 => edge(random, words),
        5 => (at, words.get(at).copied().unwrap_or(0).wrapping_add(1)),
        6 => (at, words.get(at).copied().unwrap_or(0).wrapping_sub(1)),
        _ => (at, value),
    };
    if let Some(word) = words.get_mut(at) {
        *word = change;
    }
}

fn edge(random: &mut Random, words: &[u64]) -> (usize, u64) {
    match (words.first(), random.below(3)) {
        (Some(1), 0 | 1) => random.of(&INVOKE_EDGES),
        (Some(4), 0) => random.of(&ABORT_EDGES),
        (Some(7), 0) => random.of(&NACK_EDGES),
        (Some(3 | 4 | 7), 1) => random.of(&NO_DATA_EDGES),
        _ => random.of(&EDGES),
    }
}

/// The place of a word: of the header mostly, or of an item that is there or would be the next.
fn changed_place(random: &mut Random, words: &[u64]) -> usize {
    let items = words.get(15).copied().unwrap_or(0).min(16);
    let at = match random.below(10) {
        0..=4 => random.below(ITEM),
        5..=8 => ITEM + random.below(4 * items + 4),
        _ => random.below(FIELDS as u64),
    };
    at as usize
}

/// A value at an edge of some field, of the octets or of all numbers.
fn new_value(random: &mut Random, octets: u64) -> u64 {
    match random.below(4) {
        0 => random.below(19),
        1 => octets.saturating_sub(2) + random.below(4),
        2 => random.of(&[31, 32, 255, 256, 257, 1023, 1497, 1500, 1501, 32_768, 65_535, 65_536, 65_541]),
        _ => random.of(&[1 << 32, 1 << 63, u64::MAX, u64::MAX - 1, u64::MAX - octets, octets.wrapping_neg()]),
    }
}

#[cfg(test)]
mod tests {
    use super::*;
    use wtp::ffi::ANSWER;

    #[test]
    fn changed_fields_reach_every_outcome_of_the_writer() {
        let mut random = Random::new(1);
        let mut call = Call::default();
        let mut fields = [0; FIELDS];
        let mut missing = vec![0, 1, 11, 101, 102, 103, 104, 105, 106, 107];
        for _ in 0..5000 {
            draw_read(&mut random, &mut call);
            if wtp::ffi::read(&call.octets, &mut fields) == 0 {
                draw_write(&mut random, &fields, &mut call);
                let number = wtp::ffi::write(&call.words, &call.octets, &mut [0; 1500], &mut [0; ANSWER]);
                missing.retain(|wanted| *wanted != number);
            }
            if missing.is_empty() {
                return;
            }
        }
        panic!("never reached: {missing:?}");
    }
}
