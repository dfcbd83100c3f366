//! Builds PDUs of the seven types from random fields, and damages some of them.

use kit::Random;

/// The longest PDU.
pub const LONGEST: usize = 1500;
const INVOKE: u8 = 1;
const ACK: u8 = 3;
const ABORT: u8 = 4;
const NACK: u8 = 7;

/// Appends a PDU of this type with this TID of 16 bits.
pub fn build(random: &mut Random, kind: u8, tid: u16, pdu: &mut Vec<u8>) {
    let start = pdu.len();
    let items = if random.percent(25) { items(random) } else { 0 };
    pdu.push(u8::from(items > 0) << 7 | kind << 3 | flags(random, kind));
    pdu.extend_from_slice(&tid.to_be_bytes());
    after_tid(random, kind, pdu);
    for item in 1..=items {
        append_item(random, item < items, pdu);
    }
    if !matches!(kind, ACK | ABORT | NACK) {
        let count = data_length(random);
        random.append(pdu, count);
    }
    pdu.truncate(start + LONGEST);
}

/// The number of items: few mostly, sometimes about as many as there may be.
fn items(random: &mut Random) -> u64 {
    if random.percent(75) {
        1 + random.below(3)
    } else {
        15 + random.below(3)
    }
}

fn flags(random: &mut Random, kind: u8) -> u8 {
    let any = (random.word() >> 61) as u8;
    match kind {
        ABORT if random.percent(95) => any & 1,
        ACK | ABORT | NACK => any,
        _ if random.percent(85) => any | 0b110,
        _ => any,
    }
}

fn after_tid(random: &mut Random, kind: u8, pdu: &mut Vec<u8>) {
    match kind {
        INVOKE => pdu.push(invoke_octet(random)),
        ABORT => pdu.push(if random.percent(50) { random.below(10) as u8 } else { random.octet() }),
        5 | 6 => pdu.push(random.octet()),
        NACK => {
            let count = if random.percent(90) { random.below(5) as u8 } else { random.octet() };
            pdu.push(count);
            random.append(pdu, count.into());
        }
        _ => (),
    }
}

/// Version, TIDnew, U/P, reserved bits and class of an Invoke.
fn invoke_octet(random: &mut Random) -> u8 {
    let version = if random.percent(92) { 0 } else { random.octet() & 0b1100_0000 };
    let class = random.of(&[0, 0, 1, 1, 1, 1, 2, 2, 2, 2, 2, 2, 2, 2, 2, 3]);
    // Seldom enough that TIDs stay cached.
    let tidnew = u8::from(random.percent(15)) << 5;
    version | tidnew | random.octet() & 0b0001_1100 | class
}

/// An item, short or long, of an identity that is 1 (Info) often and unknown often.
fn append_item(random: &mut Random, another: bool, pdu: &mut Vec<u8>) {
    let identity = if random.percent(40) { 6 + random.below(10) as u8 } else { random.of(&[0, 1, 1, 1, 1, 2, 3, 4, 5]) };
    let head = u8::from(another) << 7 | identity << 3;
    let length = if random.percent(60) {
        let length = random.below(4) as u8;
        pdu.push(head | length);
        length
    } else {
        let length = if random.percent(90) { random.below(6) as u8 } else { random.octet() };
        pdu.push(head | 0b100 | random.octet() & 0b11);
        pdu.push(length);
        length
    };
    random.append(pdu, length.into());
}

/// A length of user data: short mostly, else about 1,024 or about the longest that a PDU can have.
pub fn data_length(random: &mut Random) -> usize {
    match random.below(20) {
        0 => random.of(&[1023, 1024, 1025, 1026]),
        1 => 1490 + random.place(11),
        2..=5 => 0,
        _ => random.place(10),
    }
}

/// Damages a PDU or a datagram in one of several ways.
pub fn damage(random: &mut Random, pdu: &mut Vec<u8>) {
    let place = random.place(pdu.len());
    match random.below(10) {
        0 => pdu.truncate(place),
        1 => pdu.truncate(random.place(6)),
        5 | 6 => pdu.truncate(pdu.len().saturating_sub(1 + random.place(3))),
        2 => random.fill(pdu),
        3 => pdu.resize(LONGEST + random.place(3), 0x55),
        4 => {
            let count = 1 + random.place(3);
            random.append(pdu, count);
        }
        _ => (0..1 + random.below(3)).for_each(|_| flip(random, pdu)),
    }
}

/// Flips a bit, one of the first eight octets mostly.
fn flip(random: &mut Random, pdu: &mut [u8]) {
    let near = if random.percent(80) { pdu.len().min(8) } else { pdu.len() };
    let place = random.place(near);
    if let Some(octet) = pdu.get_mut(place) {
        *octet ^= 1 << random.below(8);
    }
}

#[cfg(test)]
mod tests {
    use super::*;

    /// The numbers with which the library reads PDUs of this type.
    fn numbers(kind: u8, damaged: bool) -> Vec<u64> {
        let mut random = Random::new(u64::from(kind));
        let mut numbers = Vec::new();
        for _ in 0..600 {
            let mut pdu = Vec::new();
            build(&mut random, kind, 0x8005, &mut pdu);
            if damaged {
                damage(&mut random, &mut pdu);
            }
            numbers.push(wtp::ffi::read(&pdu, &mut [0; 88]));
        }
        numbers
    }

    #[test]
    fn most_pdus_of_each_type_are_well_formed() {
        for kind in 1..=7 {
            let sound = numbers(kind, false).iter().filter(|number| **number == 0).count();
            assert!(sound > 480, "type {kind}: {sound}");
        }
    }

    #[test]
    fn damage_reaches_every_outcome_of_the_reader() {
        let reached: Vec<u64> = (1..=7).flat_map(|kind| numbers(kind, true)).collect();
        for number in [0, 11, 101, 102, 103, 104, 105, 106, 107] {
            assert!(reached.contains(&number), "{number}");
        }
    }

    #[test]
    fn an_empty_pdu_can_be_damaged_too() {
        let mut random = Random::new(3);
        (0..100).for_each(|_| damage(&mut random, &mut Vec::new()));
    }
}
