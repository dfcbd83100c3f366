//! A PDU as it is read from its octets.

use crate::items::{self, Items};

/// A part of the octets that were lent.
#[derive(Clone, Copy, Debug, Default, PartialEq, Eq)]
pub struct Part {
    pub start: usize,
    pub length: usize,
}

impl Part {
    pub fn end(self) -> usize {
        self.start + self.length
    }
}

/// D1 to D7 with their numbers in the interface.
#[derive(Clone, Copy, Debug, PartialEq, Eq)]
pub enum Malformed {
    D1 = 101,
    D2 = 102,
    D3 = 103,
    D4 = 104,
    D5 = 105,
    D6 = 106,
    D7 = 107,
}

#[derive(Clone, Copy, Debug, PartialEq, Eq)]
pub struct Flags {
    pub gtr: bool,
    pub ttr: bool,
    pub rid: bool,
}

#[derive(Clone, Copy, Debug, PartialEq, Eq)]
pub struct Invoke {
    pub version: u8,
    pub tidnew: bool,
    pub user_ack: bool,
    pub class: u8,
}

/// What follows the type, with the user data where the type has some.
#[derive(Clone, Copy, Debug, PartialEq, Eq)]
pub enum Body {
    Invoke { flags: Flags, invoke: Invoke, data: Part },
    Result { flags: Flags, data: Part },
    Ack { tid_test: bool, rid: bool },
    Abort { kind: u8, reason: u8 },
    SegmentedInvoke { flags: Flags, packet: u8, data: Part },
    SegmentedResult { flags: Flags, packet: u8, data: Part },
    Nack { rid: bool, list: Part },
}

#[derive(Clone, Copy, Debug, PartialEq, Eq)]
pub struct Pdu {
    pub tid: u16,
    pub body: Body,
    pub items: Items,
}

/// The four bits of type, also of a malformed PDU.
pub fn type_of(first: u8) -> u8 {
    first >> 3 & 15
}

/// Octets of the fixed header without a Nack's list; `None` is D2.
pub fn header_length(kind: u8) -> Option<usize> {
    match kind {
        2 | 3 => Some(3),
        1 | 4..=7 => Some(4),
        _ => None,
    }
}

/// Reads a PDU of at least one octet.
pub fn parse(octets: &[u8]) -> Result<Pdu, Malformed> {
    let first = octets.first().copied().unwrap_or(0);
    let kind = type_of(first);
    let fixed = header_length(kind).ok_or(Malformed::D2)?;
    if octets.len() < fixed {
        return Err(Malformed::D1);
    }
    let tid = u16::from_be_bytes([octets[1], octets[2]]);
    let last = octets.get(3).copied().unwrap_or(0);
    let list = Part { start: fixed, length: if kind == 7 { usize::from(last) } else { 0 } };
    if octets.len() < list.end() {
        return Err(Malformed::D1);
    }
    let mut body = body_of(kind, first, last, list);
    judge_values(&body)?;
    let (items, end) = items::parse(octets, list.end(), first & 0x80 != 0)?;
    place_user_data(&mut body, Part { start: end, length: octets.len() - end })?;
    Ok(Pdu { tid, body, items })
}

fn body_of(kind: u8, first: u8, last: u8, list: Part) -> Body {
    let flags = Flags { gtr: first & 4 != 0, ttr: first & 2 != 0, rid: first & 1 != 0 };
    let data = Part::default();
    match kind {
        1 => {
            let invoke = Invoke { version: last >> 6, tidnew: last & 0x20 != 0, user_ack: last & 0x10 != 0, class: last & 3 };
            Body::Invoke { flags, invoke, data }
        }
        2 => Body::Result { flags, data },
        3 => Body::Ack { tid_test: first & 4 != 0, rid: flags.rid },
        4 => Body::Abort { kind: first & 7, reason: last },
        5 => Body::SegmentedInvoke { flags, packet: last, data },
        6 => Body::SegmentedResult { flags, packet: last, data },
        _ => Body::Nack { rid: flags.rid, list },
    }
}

fn judge_values(body: &Body) -> Result<(), Malformed> {
    match body {
        Body::Invoke { invoke, .. } if invoke.class == 3 => Err(Malformed::D5),
        Body::Abort { kind, .. } if *kind > 1 => Err(Malformed::D6),
        _ => Ok(()),
    }
}

fn place_user_data(body: &mut Body, rest: Part) -> Result<(), Malformed> {
    match body {
        Body::Invoke { data, .. }
        | Body::Result { data, .. }
        | Body::SegmentedInvoke { data, .. }
        | Body::SegmentedResult { data, .. } => *data = rest,
        Body::Ack { .. } | Body::Abort { .. } | Body::Nack { .. } if rest.length > 0 => return Err(Malformed::D7),
        Body::Ack { .. } | Body::Abort { .. } | Body::Nack { .. } => {}
    }
    Ok(())
}
