//! Concatenated PDUs: separation and joining.

use crate::bounds;
use crate::output::Output;
use crate::pdu::Part;
use crate::reading::read;
use crate::words::{ANSWER, FIELDS, PART};

pub fn separate(datagram: &[u8], k: u64, part: &mut [u64]) -> u64 {
    let words = match part.get_mut(..PART) {
        Some(words) => words,
        None => return 1,
    };
    if !(1..=bounds::PDU).contains(&datagram.len()) {
        return 11;
    }
    match walk(datagram, k) {
        Some((found, count)) => {
            words.copy_from_slice(&[found.start as u64, found.length as u64, count]);
            0
        }
        None => 11,
    }
}

/// Reads the k-th PDU; where there is none, its length is 0 and so wrong.
pub fn read_part(datagram: &[u8], k: u64, fields: &mut [u64]) -> u64 {
    if fields.len() < FIELDS {
        return 1;
    }
    if !(1..=bounds::PDU).contains(&datagram.len()) {
        return 11;
    }
    match walk(datagram, k) {
        Some((found, _)) => read(&datagram[found.start..found.end()], fields),
        None => 11,
    }
}

/// The k-th part, empty where there is none, and how many there are; `None` where the datagram can't be separated.
fn walk(datagram: &[u8], k: u64) -> Option<(Part, u64)> {
    let whole = Part { start: 0, length: datagram.len() };
    if datagram.first() != Some(&0) {
        return Some((if k == 0 { whole } else { Part::default() }, 1));
    }
    let mut found = Part::default();
    let mut count = 0;
    let mut at = 1;
    while at < datagram.len() {
        let part = part_at(datagram, at)?;
        if count == k {
            found = part;
        }
        count += 1;
        at = part.end();
    }
    (count > 0).then_some((found, count))
}

/// The part whose length field is at `at`.
fn part_at(datagram: &[u8], at: usize) -> Option<Part> {
    let first = *datagram.get(at)?;
    let part = if first & 0x80 == 0 {
        Part { start: at + 1, length: first.into() }
    } else {
        let low = *datagram.get(at + 1)?;
        Part { start: at + 2, length: u16::from_be_bytes([first & 0x7F, low]).into() }
    };
    (part.length > 0 && part.end() <= datagram.len()).then_some(part)
}

pub fn join(bytes: &[u8], lengths: &[u64], out: &mut [u8], answer: &mut [u64]) -> u64 {
    let answer = match answer.get_mut(..ANSWER) {
        Some(answer) if out.len() >= bounds::OUTPUT => answer,
        _ => return 1,
    };
    if !can_be_joined(bytes, lengths) {
        return 11;
    }
    let mut output = Output::new(out);
    put_joined(&mut output, bytes, lengths);
    answer.fill(0);
    answer[0] = output.length() as u64;
    0
}

fn can_be_joined(bytes: &[u8], lengths: &[u64]) -> bool {
    let each = lengths.iter().all(|length| (1..=bounds::PDU as u64).contains(length));
    if lengths.is_empty() || !each {
        return false;
    }
    let pdus: u128 = lengths.iter().map(|length| u128::from(*length)).sum();
    let fields: u128 = lengths.iter().map(|length| if *length <= 127 { 1 } else { 2 }).sum();
    pdus == bytes.len() as u128 && 1 + fields + pdus <= bounds::PDU as u128
}

fn put_joined(output: &mut Output, bytes: &[u8], lengths: &[u64]) {
    output.put(&[0]);
    let mut rest = bytes;
    for length in lengths {
        let (pdu, after) = rest.split_at(*length as usize);
        match pdu.len() as u16 {
            short @ 0..=127 => output.put(&[short as u8]),
            long => output.put(&(long | 0x8000).to_be_bytes()),
        }
        output.put(pdu);
        rest = after;
    }
}
