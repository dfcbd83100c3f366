//! Reading: the tables of sections 1 and 2, and the fourteen conditions of section 3.

use crate::cursor::Cursor;
use crate::frame::{has_formats, Body, Entry, Frame, Kind, Managed, Ports};

/// The conditions of section 3, in its order.
#[derive(Clone, Copy, Debug, PartialEq, Eq, PartialOrd, Ord)]
pub enum Malformed {
    NoOctet = 1,
    OtherProtocol,
    HeaderCut,
    NotSack,
    TooLong,
    InformationInS,
    UnknownM,
    InformationWhereNone,
    Items,
    PortsInManagePort,
    Action,
    Status,
    BodyCut,
    OctetsLeft,
}

impl Malformed {
    pub const ALL: [Malformed; 14] = [
        Malformed::NoOctet,
        Malformed::OtherProtocol,
        Malformed::HeaderCut,
        Malformed::NotSack,
        Malformed::TooLong,
        Malformed::InformationInS,
        Malformed::UnknownM,
        Malformed::InformationWhereNone,
        Malformed::Items,
        Malformed::PortsInManagePort,
        Malformed::Action,
        Malformed::Status,
        Malformed::BodyCut,
        Malformed::OctetsLeft,
    ];
}

/// N201.
const LONGEST: usize = 1520;

/// The bits of octet 1, 8 to 1, from which on a kind is told: PD, then 0 (I), 1 0 (UI), 1 1 0 (S), 1 1 1 (U).
pub fn parse(frame: &[u8], from_network: bool) -> Result<Frame, Malformed> {
    let mut cursor = Cursor::new(frame);
    let first = cursor.octet().ok_or(Malformed::NoOctet)?;
    if first & 0x80 != 0 {
        return Err(Malformed::OtherProtocol);
    }
    let second = if first & 0x60 == 0x40 { 0 } else { cursor.octet().ok_or(Malformed::HeaderCut)? };
    let ports = match first & 0x08 {
        0 => None,
        _ => Some(Ports::of(cursor.octet().ok_or(Malformed::HeaderCut)?)),
    };
    if cursor.left() > LONGEST {
        return Err(Malformed::TooLong);
    }
    let kind = match first & 0x70 {
        0x00..=0x30 => {
            let (nr, r) = sack(second)?;
            Kind::I { a: first & 0x20 != 0, ns: first & 7, nr, r, information: cursor.rest() }
        }
        0x40 | 0x50 => Kind::Ui { nu: first & 7, information: cursor.rest() },
        0x60 => {
            let (nr, r) = sack(second)?;
            nothing_left(&cursor, Malformed::InformationInS)?;
            Kind::S { a: first & 4 != 0, nr, r }
        }
        _ => {
            let response = (first & 4 != 0) != from_network;
            Kind::U { response, body: body(second & 15, response, ports.is_some(), frame, cursor)? }
        }
    };
    Ok(Frame { ports, kind })
}

/// N(R) and R, where S1 S2 are 1 1.
fn sack(second: u8) -> Result<(u8, u8), Malformed> {
    if second & 3 == 3 {
        Ok((second >> 5, second >> 2 & 7))
    } else {
        Err(Malformed::NotSack)
    }
}

fn nothing_left(cursor: &Cursor, otherwise: Malformed) -> Result<(), Malformed> {
    if cursor.left() == 0 {
        Ok(())
    } else {
        Err(otherwise)
    }
}

fn body(m: u8, response: bool, ads: bool, frame: &[u8], mut cursor: Cursor) -> Result<Body, Malformed> {
    match (m, response) {
        (1, _) => nothing_left(&cursor, Malformed::InformationWhereNone).map(|()| Body::Error),
        (4, false) => nothing_left(&cursor, Malformed::InformationWhereNone).map(|()| Body::Disconnect),
        (6, true) => Ok(Body::Accept(cursor.rest())),
        (7, false) => Ok(Body::SetAckMode(cursor.rest())),
        (10, _) if ads => Err(Malformed::PortsInManagePort),
        (10, _) => manage_port(response, cursor),
        (11, _) => {
            let items = cursor.rest();
            are_items(&frame[items.start..]).then_some(Body::SetParameters(items)).ok_or(Malformed::Items)
        }
        _ => Err(Malformed::UnknownM),
    }
}

/// Items to the end: Type, Length, then Length octets; Type 0 has Length 1.
fn are_items(octets: &[u8]) -> bool {
    match octets {
        [] => true,
        [kind, length, rest @ ..] => {
            let length = usize::from(*length);
            (*kind != 0 || length == 1) && length <= rest.len() && are_items(&rest[length..])
        }
        [_] => false,
    }
}

fn manage_port(response: bool, mut cursor: Cursor) -> Result<Body, Malformed> {
    let first = cursor.octet().ok_or(Malformed::Action)?;
    let action = first & 15;
    let managed = match (action, response) {
        (1 | 2 | 5, false) => command(action, &mut cursor).ok_or(Malformed::BodyCut)?,
        (1 | 2 | 5, true) => status(action, &mut cursor)?,
        (3 | 6, false) => Managed::Query { bitmap: bitmap(&mut cursor) },
        (3 | 6, true) | (4 | 7, false) => list(first >> 4, has_formats(action), &mut cursor).ok_or(Malformed::BodyCut)?,
        _ => return Err(Malformed::Action),
    };
    nothing_left(&cursor, Malformed::OctetsLeft)?;
    Ok(Body::ManagePort { action, managed })
}

fn command(action: u8, cursor: &mut Cursor) -> Option<Managed> {
    let ports = Ports::of(cursor.octet()?);
    let application = cursor.application()?;
    let format = if action == 5 { Some(cursor.octet()? & 7) } else { None };
    Some(Managed::Command { ports, application, format })
}

fn status(action: u8, cursor: &mut Cursor) -> Result<Managed, Malformed> {
    let mut octet = || cursor.octet().ok_or(Malformed::BodyCut);
    let format = if action == 5 { Some(octet()? & 7) } else { None };
    match octet()? {
        status @ 0..=3 => Ok(Managed::Response { format, status }),
        _ => Err(Malformed::Status),
    }
}

/// The optional two octets of a bitmap: none where there aren't two.
fn bitmap(cursor: &mut Cursor) -> Option<u16> {
    let mut ahead = *cursor;
    let (low, high) = (ahead.octet()?, ahead.octet()?);
    *cursor = ahead;
    Some(u16::from(low & 0xFE) + 256 * u16::from(high))
}

fn list(count: u8, formats: bool, cursor: &mut Cursor) -> Option<Managed> {
    let entries = (0..count).map(|_| entry(formats, cursor)).collect::<Option<Vec<_>>>()?;
    Some(Managed::List { entries, bitmap: bitmap(cursor) })
}

fn entry(formats: bool, cursor: &mut Cursor) -> Option<Entry> {
    let ports = Ports::of(cursor.octet()?);
    let application = cursor.application()?;
    let format = if formats { Some(cursor.octet()? & 7) } else { None };
    Some(Entry { ports, application, format })
}
