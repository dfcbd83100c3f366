//! Builds frames of every kind from random fields, and damages some of them.

use super::manage;
use kit::Random;

const MANAGE_PORT: u8 = 10;

/// A frame of a side, most of them a MANAGE_PORT aimed at this book.
pub fn draw(random: &mut Random, book: &[u8], from_network: bool, frame: &mut Vec<u8>) {
    frame.clear();
    match random.below(10) {
        0 => data_frame(random, frame),
        1 => supervisory(random, frame),
        2 => other_u(random, from_network, frame),
        _ => {
            let response = random.percent(45);
            header(random, MANAGE_PORT, response != from_network, false, frame);
            manage::append(random, book, response, frame);
        }
    }
    if random.percent(30) {
        spare_bits(random, frame);
    }
    if random.percent(20) {
        damage(random, frame);
    }
}

/// I or UI with information, short mostly, else about the longest that there may be.
fn data_frame(random: &mut Random, frame: &mut Vec<u8>) {
    let ports = random.percent(50);
    let ads = if ports { 8 } else { 0 };
    let number = random.below(8) as u8;
    if random.percent(50) {
        frame.push(0x40 | ads | number);
    } else {
        frame.extend([random.of(&[0, 0x20]) | ads | number, random.octet() | 3]);
    }
    if ports {
        frame.push(random.octet());
    }
    let count = length(random);
    random.append(frame, count);
}

fn length(random: &mut Random) -> usize {
    if random.percent(90) {
        random.place(6)
    } else {
        1_499 + random.place(25)
    }
}

fn supervisory(random: &mut Random, frame: &mut Vec<u8>) {
    let ports = random.percent(50);
    frame.extend([0x60 | if ports { 8 } else { 0 } | random.of(&[0, 4]), random.octet() | 3]);
    if ports {
        frame.push(random.octet());
    }
}

/// A U frame that is no MANAGE_PORT, seldom with an M that there isn't.
fn other_u(random: &mut Random, from_network: bool, frame: &mut Vec<u8>) {
    let (m, response) =
        random.of(&[(1, false), (1, true), (4, false), (6, true), (7, false), (11, false), (11, true), (1, true)]);
    let m = if random.percent(90) { m } else { random.below(16) as u8 };
    let ports = random.percent(40);
    header(random, m, response != from_network, ports, frame);
    match m {
        6 | 7 => {
            let count = length(random);
            random.append(frame, count);
        }
        11 => items(random, frame),
        _ => (),
    }
}

fn items(random: &mut Random, frame: &mut Vec<u8>) {
    for _ in 0..random.of(&[0, 1, 1, 2, 3, 200]) {
        let kind = random.of(&[0, 0, 1, 255]);
        let count = if kind == 0 { 1 } else { random.of(&[0, 0, 1, 5]) };
        frame.extend([kind, count]);
        random.append(frame, count.into());
    }
}

fn header(random: &mut Random, m: u8, bit: bool, ports: bool, frame: &mut Vec<u8>) {
    frame.extend([0x70 | if bit { 4 } else { 0 } | if ports { 8 } else { 0 }, m]);
    if ports {
        frame.push(random.octet());
    }
}

/// Sets spare bits of octets 1 and 2, as the kind has them.
fn spare_bits(random: &mut Random, frame: &mut [u8]) {
    let (first, second) = match frame.first().map(|first| first & 0x70) {
        Some(0x70) => (random.octet() & 3, random.octet() & 0xF0),
        Some(0x60) => (random.octet() & 3, 0),
        _ => (random.octet() & 0x10, 0),
    };
    frame.iter_mut().zip([first, second]).for_each(|(octet, bits)| *octet |= bits);
}

/// Damages a frame: cut, too long, an octet more, or a bit flipped.
fn damage(random: &mut Random, frame: &mut Vec<u8>) {
    let place = random.place(frame.len());
    match random.below(8) {
        0 => frame.truncate(place),
        1 => frame.truncate(frame.len().saturating_sub(1 + random.place(3))),
        2 => frame.resize(1_518 + random.place(9), 0x55),
        3 => {
            let count = 1 + random.place(3);
            random.append(frame, count);
        }
        4 => random.fill(frame),
        _ => flip(random, frame),
    }
}

/// Flips a bit, one of the first five octets mostly.
fn flip(random: &mut Random, frame: &mut [u8]) {
    let near = if random.percent(75) { frame.len().min(5) } else { frame.len() };
    let place = random.place(near);
    if let Some(octet) = frame.get_mut(place) {
        *octet ^= 1 << random.below(8);
    }
}
