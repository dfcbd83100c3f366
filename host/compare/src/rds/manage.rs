//! The information field of MANAGE_PORT, aimed at what a book keeps.

use super::books::{any_kept, kept};
use kit::Random;

/// Application IDs of the shortest and the longest length, and two that differ in their last octet.
const LENGTHS: [u8; 4] = [0, 255, 3, 3];

/// One of a few Application IDs.
pub fn application(random: &mut Random) -> Vec<u8> {
    let which = random.place(LENGTHS.len());
    let mut application = vec![0xA0; 16];
    application.push(LENGTHS[which]);
    application.resize(17 + usize::from(LENGTHS[which]), 0x77);
    application.iter_mut().rev().take(1).for_each(|last| *last ^= if which == 3 { 1 } else { 0 });
    application
}

/// A port of which there are few.
pub fn port(random: &mut Random) -> u8 {
    random.of(&[0, 1, 2, 3, 3, 15])
}

pub fn append(random: &mut Random, book: &[u8], response: bool, frame: &mut Vec<u8>) {
    if response {
        append_response(random, book, frame);
    } else {
        append_command(random, book, frame);
    }
}

/// With the Action of our outstanding command mostly.
fn append_response(random: &mut Random, book: &[u8], frame: &mut Vec<u8>) {
    let outstanding = kept(book, 0).filter(|_| random.percent(80)).map(|command| command.first);
    let action = outstanding.unwrap_or_else(|| random.of(&[1, 2, 5, 3, 6, 4, 0, 8]));
    let status = random.of(&[0, 0, 0, 1, 2, 3, 4]);
    match action {
        1 | 2 => frame.extend([action, status]),
        5 => frame.extend([action, random.below(8) as u8, status]),
        _ => list(random, action, frame),
    }
}

fn append_command(random: &mut Random, book: &[u8], frame: &mut Vec<u8>) {
    let action = random.of(&[1, 1, 1, 5, 5, 2, 2, 3, 4, 6, 7, 0, 9]);
    match action {
        1 | 2 | 5 => {
            frame.push(action | random.of(&[0, 0, 0xF0]));
            asked(random, book, frame);
            if action == 5 {
                frame.push(random.octet());
            }
        }
        3 | 6 => {
            frame.push(action);
            bitmap(random, frame);
        }
        _ => list(random, action, frame),
    }
}

/// Ports and an Application ID: those of something that is kept, changed now and then, or any.
fn asked(random: &mut Random, book: &[u8], frame: &mut Vec<u8>) {
    let aimed = any_kept(random, book).filter(|_| random.percent(60));
    let (own, peers) = aimed.map_or_else(|| (port(random), port(random)), |kept| (kept.own, kept.peers));
    let peers = if random.percent(80) { peers } else { port(random) };
    frame.push(peers << 4 | own & 15);
    let other = application(random);
    frame.extend(aimed.filter(|_| random.percent(85)).map_or(&other[..], |kept| kept.application));
}

fn list(random: &mut Random, action: u8, frame: &mut Vec<u8>) {
    let count = random.of(&[0, 1, 1, 2, 3, 15]);
    frame.push(count << 4 | action);
    for _ in 0..count {
        frame.push(random.octet());
        let application = if count == 15 && random.percent(60) { vec![0; 17] } else { application(random) };
        frame.extend(application);
        if action > 5 {
            frame.push(random.octet());
        }
    }
    bitmap(random, frame);
}

fn bitmap(random: &mut Random, frame: &mut Vec<u8>) {
    if random.percent(50) {
        frame.extend([random.octet(), random.octet()]);
    }
}
