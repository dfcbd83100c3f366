//! Fields to write: those that were read, as they are, with their parts elsewhere, or changed.

use kit::Random;
use rds::word;

/// The words that are starts of a part, beside those of the entries.
const STARTS: [usize; 2] = [word::START, word::APP_START];

/// Place and value of a word at the edge of its range.
const EDGES: [(usize, u64); 22] = [
    (word::KIND, 0),
    (word::KIND, 5),
    (word::ADS, 2),
    (word::SOURCE, 16),
    (word::DESTINATION, 15),
    (word::A, 2),
    (word::NS, 8),
    (word::NR, 8),
    (word::R, 8),
    (word::NU, 8),
    (word::M, 16),
    (word::M, 2),
    (word::RESPONSE, 2),
    (word::ACTION, 16),
    (word::STATUS, 4),
    (word::FORMAT, 8),
    (word::BITMAP_THERE, 2),
    (word::BITMAP, 65_536),
    (word::BITMAP, 1),
    (word::ENTRIES, 16),
    (23, 1),
    (99, 1),
];

/// Changes fields that were read from these octets, or the octets, so that most are no frame any more.
pub fn change(random: &mut Random, fields: &mut Vec<u64>, octets: &mut Vec<u8>) {
    match random.below(10) {
        0 | 1 => (),
        2 | 3 => move_parts(random, fields, octets),
        4 => octets.truncate(random.place(octets.len() + 1)),
        5 => stretch(random, fields, octets),
        _ => (0..random.of(&[1, 1, 2])).for_each(|_| change_word(random, fields, octets.len() as u64)),
    }
    if random.percent(2) {
        fields.resize(random.of(&[0, 1, 99, 101]), 0);
    }
}

/// The same parts after some octets more.
fn move_parts(random: &mut Random, fields: &mut [u64], octets: &mut Vec<u8>) {
    let count = 1 + random.place(300);
    octets.splice(0..0, std::iter::repeat(0x33).take(count));
    let entries = fields.get(word::ENTRIES).map_or(0, |entries| *entries as usize);
    let of_entries = (0..entries).map(|k| word::FIRST_ENTRY + word::ENTRY * k + 2);
    // No part of a frame starts at 0: a start of 0 is that of a part which the frame hasn't.
    for start in STARTS.into_iter().chain(of_entries) {
        if fields[start] > 0 {
            fields[start] += count as u64;
        }
    }
}

/// Information as long as it may be, or a little longer, in octets enough.
fn stretch(random: &mut Random, fields: &mut [u64], octets: &mut Vec<u8>) {
    octets.resize(1_600, 0x44);
    fields[word::START] = random.below(70);
    fields[word::LENGTH] = 1_518 + random.below(5);
}

fn change_word(random: &mut Random, fields: &mut [u64], octets: u64) {
    let entries = fields.get(word::ENTRIES).map_or(0, |entries| *entries as usize);
    let any = match random.below(3) {
        0 => random.place(word::FIRST_ENTRY),
        1 => word::FIRST_ENTRY + random.place(word::ENTRY * (entries.min(14) + 1)),
        _ => random.place(fields.len()),
    };
    let (place, value) = match random.below(8) {
        0..=2 => random.of(&EDGES),
        3 => (any, fields[any].wrapping_add(1)),
        4 => (any, fields[any].wrapping_sub(1)),
        5 => (any, random.below(18)),
        6 => (any, octets.saturating_sub(1) + random.below(3)),
        _ => (any, random.of(&[255, 256, 1_521, 1 << 32, 1 << 63, u64::MAX, u64::MAX - octets, octets.wrapping_neg()])),
    };
    fields[place] = value;
}
