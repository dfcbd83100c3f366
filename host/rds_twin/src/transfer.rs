//! The calls `rds_read`, `rds_take` and `rds_put`.

use crate::frame::{Body, Frame, Kind, Part, Ports};
use crate::octets::octets;
use crate::parse::parse;
use crate::words::words;
use crate::{Said, ANSWER, FIELDS, OUTPUT, PART, WRONG_LENGTH, WRONG_SIZE, WRONG_VALUE};

pub fn read(frame: &[u8], from_network: u64, fields: &mut [u64]) -> Said {
    if fields.len() < FIELDS {
        return Said::refused(WRONG_SIZE);
    }
    match parse(frame, from_network != 0) {
        Ok(frame) => {
            fields[..FIELDS].copy_from_slice(&words(&frame));
            Said::accepted(None)
        }
        Err(why) => Said::malformed(why),
    }
}

pub fn take(frame: &[u8], from_network: u64, part: &mut [u64]) -> Said {
    if part.len() < PART {
        return Said::refused(WRONG_SIZE);
    }
    match parse(frame, from_network != 0) {
        Ok(frame) => {
            part[..PART].copy_from_slice(&part_words(&frame));
            Said::accepted(None)
        }
        Err(why) => Said::malformed(why),
    }
}

fn part_words(frame: &Frame) -> [u64; PART] {
    let (kind, data, number) = match frame.kind {
        Kind::I { ns, information, .. } => (1, information, ns),
        Kind::S { .. } => (2, Part { start: 0, length: 0 }, 0),
        Kind::Ui { nu, information } => (3, information, nu),
        Kind::U { .. } => (4, Part { start: 0, length: 0 }, 0),
    };
    let ports = frame.ports.unwrap_or(Ports { source: 0, destination: 0 });
    let ads = u64::from(frame.ports.is_some());
    [kind, data.start as u64, data.length as u64, ads, ports.source.into(), ports.destination.into(), number.into(), 0]
}

/// The numbers that `rds_put` is given.
#[derive(Clone, Copy)]
pub struct Sent {
    pub ports: u64,
    pub source: u64,
    pub destination: u64,
    pub number: u64,
}

pub fn put(datagram: &[u8], sent: Sent, out: &mut [u8], answer: &mut [u64]) -> Said {
    let Sent { ports, source, destination, number } = sent;
    if out.len() < OUTPUT || answer.len() < ANSWER {
        return Said::refused(WRONG_SIZE);
    }
    if number > 7 || source > 15 || destination > 15 || ports == 0 && (source, destination) != (0, 0) {
        return Said::refused(WRONG_VALUE);
    }
    if !(1..=1500).contains(&datagram.len()) {
        return Said::refused(WRONG_LENGTH);
    }
    let told = Ports { source: source as u8, destination: destination as u8 };
    let information = Part { start: 0, length: datagram.len() };
    let frame = Frame { ports: (ports != 0).then_some(told), kind: Kind::Ui { nu: number as u8, information } };
    let octets = octets(&frame, false, datagram);
    out[..octets.len()].copy_from_slice(&octets);
    answer[..ANSWER].fill(0);
    answer[0] = octets.len() as u64;
    answer[12] = (number + 1) % 8;
    Said::accepted(None)
}

/// A U frame without a ports octet.
pub fn u_frame(response: bool, body: Body) -> Frame {
    Frame { ports: None, kind: Kind::U { response, body } }
}
