//! Draws calls of the separator, of the reader of a part, and of the joiner.

use crate::calls::{Call, Kind};
use crate::pdus;
use kit::Random;

/// A datagram to be separated, damaged now and then.
pub fn draw_separate(random: &mut Random, call: &mut Call) {
    call.words.clear();
    call.octets.clear();
    let count = part_count(random);
    if random.percent(92) {
        call.octets.push(0);
    }
    (0..count).for_each(|_| append_part(random, &mut call.octets));
    if random.percent(20) {
        pdus::damage(random, &mut call.octets);
    }
    let k = if random.percent(90) { random.below(count + 2) } else { random.of(&[count, 748, 749, 1 << 32, u64::MAX]) };
    call.kind = Kind::Separate { k };
}

/// A datagram of PDUs, of which one is to be read; damaged now and then, and seldom one PDU without a length.
pub fn draw_read_part(random: &mut Random, call: &mut Call) {
    call.words.clear();
    call.octets.clear();
    let count = 1 + random.below(3);
    let alone = random.percent(5);
    if !alone {
        call.octets.push(0);
    }
    for _ in 0..count {
        append_whole_pdu(random, alone, &mut call.octets);
    }
    if random.percent(15) {
        pdus::damage(random, &mut call.octets);
    }
    call.kind = Kind::ReadPart { k: random.below(count + 1) };
}

/// A PDU after its length, or without one; damaged now and then.
fn append_whole_pdu(random: &mut Random, alone: bool, datagram: &mut Vec<u8>) {
    let kind = if random.percent(97) { 1 + random.below(7) } else { random.below(16) };
    let tid = (random.word() >> 48) as u16;
    let mut pdu = Vec::new();
    pdus::build(random, kind as u8, tid, &mut pdu);
    if random.percent(20) {
        pdus::damage(random, &mut pdu);
    }
    if !alone {
        append_length(random, pdu.len(), datagram);
    }
    datagram.append(&mut pdu);
}

fn part_count(random: &mut Random) -> u64 {
    if random.percent(97) {
        random.below(5)
    } else {
        random.of(&[64, 65, 748, 749, 750])
    }
}

/// A length, in either form and sometimes wrong, and so many octets.
fn append_part(random: &mut Random, datagram: &mut Vec<u8>) {
    let length = if random.percent(92) { 1 + random.place(4) } else { random.of(&[0, 126, 127, 128, 129, 700, 1497]) };
    append_length(random, length, datagram);
    random.append(datagram, length);
}

fn append_length(random: &mut Random, length: usize, datagram: &mut Vec<u8>) {
    if length > 127 || random.percent(15) {
        datagram.extend_from_slice(&(0x8000 | length as u16).to_be_bytes());
    } else {
        datagram.push(length as u8);
    }
}

/// PDUs to be joined, with lengths that add up mostly.
pub fn draw_join(random: &mut Random, call: &mut Call) {
    call.kind = Kind::Join;
    call.octets.clear();
    call.words.clear();
    for _ in 0..part_count(random) {
        let length = if random.percent(85) { 1 + random.place(4) } else { random.of(&[0, 126, 127, 128, 128, 700, 1497, 1498]) };
        append_pdu(random, length, call);
    }
    if random.percent(15) {
        fill_up(random, call);
    }
    if random.percent(20) {
        spoil_lengths(random, &mut call.words);
    }
}

fn append_pdu(random: &mut Random, length: usize, call: &mut Call) {
    call.words.push(length as u64);
    random.append(&mut call.octets, length);
}

/// Adds a PDU that makes the datagram about as long as may be.
fn fill_up(random: &mut Random, call: &mut Call) {
    let fields: usize = call.words.iter().map(|length| if *length < 128 { 1 } else { 2 }).sum();
    let before = 1 + fields + call.octets.len() + 2;
    let length = (pdus::LONGEST + random.place(3)).saturating_sub(before);
    append_pdu(random, length, call);
}

/// Makes the lengths wrong, or their sum right only where it wraps.
fn spoil_lengths(random: &mut Random, lengths: &mut Vec<u64>) {
    let place = random.place(lengths.len());
    let change = random.of(&[1, 2, 1500, 1 << 32, 1 << 63, u64::MAX]);
    if let Some(length) = lengths.get_mut(place) {
        *length = length.wrapping_add(change);
    }
    match random.below(3) {
        0 => lengths.push(change.wrapping_neg()),
        1 => lengths.push(0),
        _ => (),
    }
}

#[cfg(test)]
mod tests {
    use super::*;

    #[test]
    fn datagrams_of_just_the_longest_length_are_joined() {
        let mut random = Random::new(1);
        let mut call = Call::default();
        let mut answer = [0; wtp::ffi::ANSWER];
        let reached = (0..500).any(|_| {
            draw_join(&mut random, &mut call);
            wtp::ffi::join(&call.octets, &call.words, &mut [0; 1500], &mut answer) == 0 && answer[0] == 1500
        });
        assert!(reached);
    }

    #[test]
    fn datagrams_are_separated_and_refused() {
        let mut random = Random::new(1);
        let mut call = Call::default();
        let mut separate = |_| {
            draw_separate(&mut random, &mut call);
            wtp::ffi::separate(&call.octets, 0, &mut [0; 3])
        };
        let numbers: Vec<u64> = (0..200).map(&mut separate).collect();
        assert!(numbers.contains(&0) && numbers.contains(&11));
    }
}
