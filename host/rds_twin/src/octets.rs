//! A frame as octets: the same tables the other way round, with spare bits 0. Parts are copied from lent octets.

use crate::frame::{Body, Entry, Frame, Kind, Managed, Part};

/// The octets of a frame; every value fits its place.
pub fn octets(frame: &Frame, from_network: bool, bytes: &[u8]) -> Vec<u8> {
    let mut out = Writing { out: Vec::new(), bytes };
    let ads = if frame.ports.is_some() { 0x08 } else { 0 };
    let (first, second, information) = match &frame.kind {
        Kind::I { a, ns, nr, r, information } => (bit(*a, 0x20) | ns, Some(sack(*nr, *r)), Some(*information)),
        Kind::S { a, nr, r } => (0x60 | bit(*a, 4), Some(sack(*nr, *r)), None),
        Kind::Ui { nu, information } => (0x40 | nu, None, Some(*information)),
        Kind::U { response, body } => (0x70 | bit(*response != from_network, 4), Some(body.m()), None),
    };
    out.octet(first | ads);
    second.into_iter().for_each(|second| out.octet(second));
    frame.ports.into_iter().for_each(|ports| out.octet(ports.octet()));
    information.into_iter().for_each(|part| out.part(part));
    if let Kind::U { body, .. } = &frame.kind {
        out.body(body);
    }
    out.out
}

fn bit(on: bool, bit: u8) -> u8 {
    if on {
        bit
    } else {
        0
    }
}

fn sack(nr: u8, r: u8) -> u8 {
    nr << 5 | r << 2 | 3
}

struct Writing<'a> {
    out: Vec<u8>,
    bytes: &'a [u8],
}

impl Writing<'_> {
    fn octet(&mut self, octet: u8) {
        self.out.push(octet);
    }

    fn part(&mut self, part: Part) {
        self.out.extend(&self.bytes[part.start..part.start + part.length]);
    }

    fn body(&mut self, body: &Body) {
        match body {
            Body::Error | Body::Disconnect => (),
            Body::Accept(part) | Body::SetAckMode(part) | Body::SetParameters(part) => self.part(*part),
            Body::ManagePort { action, managed } => self.managed(*action, managed),
        }
    }

    fn managed(&mut self, action: u8, managed: &Managed) {
        match managed {
            Managed::Command { ports, application, format } => {
                self.octet(action);
                self.entry(&Entry { ports: *ports, application: *application, format: *format });
            }
            Managed::Response { format, status } => {
                self.octet(action);
                format.iter().for_each(|format| self.octet(*format));
                self.octet(*status);
            }
            Managed::Query { bitmap } => {
                self.octet(action);
                self.bitmap(*bitmap);
            }
            Managed::List { entries, bitmap } => {
                self.octet((entries.len() as u8) << 4 | action);
                entries.iter().for_each(|entry| self.entry(entry));
                self.bitmap(*bitmap);
            }
        }
    }

    fn entry(&mut self, entry: &Entry) {
        self.octet(entry.ports.octet());
        self.part(entry.application);
        entry.format.into_iter().for_each(|format| self.octet(format));
    }

    fn bitmap(&mut self, bitmap: Option<u16>) {
        bitmap.into_iter().for_each(|bitmap| self.out.extend(bitmap.to_le_bytes()));
    }
}
