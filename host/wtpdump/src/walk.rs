//! Where a rule of document 01 fails. The library says whether one does, and which; this walk finds the octet.

use wtp::Refused;

/// A rule that fails, and the octet at which it does, counted from 0. A missing octet's place is the end.
#[derive(Debug, Clone, Copy, PartialEq, Eq)]
pub struct Fault {
    pub refused: Refused,
    pub at: usize,
}

const LONGEST: usize = 1500;
const MOST_ITEMS: u32 = 16;
const INVOKE: u8 = 1;
const ACK: u8 = 3;
const ABORT: u8 = 4;
const NACK: u8 = 7;

/// The first rule that a PDU fails, in the order of document 01.
pub fn fault(pdu: &[u8]) -> Option<Fault> {
    let length = pdu.len();
    let first = match pdu.first() {
        Some(first) if length <= LONGEST => *first,
        _ => return Some(Fault { refused: Refused::WrongLength, at: length.min(LONGEST) }),
    };
    let kind = first >> 3 & 15;
    let header = match header_length(kind, pdu) {
        Ok(header) => header,
        Err(refused) if refused == Refused::CutShort => return Some(Fault { refused, at: length }),
        Err(refused) => return Some(Fault { refused, at: 0 }),
    };
    if kind == INVOKE && pdu.get(3).map_or(false, |octet| octet & 3 == 3) {
        return Some(Fault { refused: Refused::ClassThree, at: 3 });
    }
    if kind == ABORT && first & 7 > 1 {
        return Some(Fault { refused: Refused::WrongAbortType, at: 0 });
    }
    match items_end(pdu, header, first >= 0x80) {
        Err(fault) => Some(fault),
        Ok(end) if matches!(kind, ACK | ABORT | NACK) && end < length => Some(Fault { refused: Refused::BytesLeft, at: end }),
        Ok(_) => None,
    }
}

/// The octets before the items, where they are all there.
fn header_length(kind: u8, pdu: &[u8]) -> Result<usize, Refused> {
    let fixed = match kind {
        2 | ACK => 3,
        1..=6 => 4,
        NACK => 4 + pdu.get(3).copied().map_or(0, usize::from),
        _ => return Err(Refused::WrongType),
    };
    if fixed <= pdu.len() {
        Ok(fixed)
    } else {
        Err(Refused::CutShort)
    }
}

/// Where the items end; `more` says whether another follows.
fn items_end(pdu: &[u8], header: usize, mut more: bool) -> Result<usize, Fault> {
    let (mut at, mut permitted) = (header, MOST_ITEMS);
    while more {
        let past_end = Fault { refused: Refused::ItemPastEnd, at };
        let (con, size) = item(pdu.get(at..).unwrap_or_default()).ok_or(past_end)?;
        permitted = permitted.saturating_sub(1);
        if con && permitted == 0 {
            return Err(Fault { refused: Refused::TooManyItems, at });
        }
        at = at.saturating_add(size);
        more = con;
    }
    Ok(at)
}

/// Whether the item at the start of these octets has CON set, and its octets, where they are all there.
fn item(octets: &[u8]) -> Option<(bool, usize)> {
    let first = *octets.first()?;
    let size = if first & 4 == 0 { 1 + usize::from(first & 3) } else { 2 + usize::from(*octets.get(1)?) };
    octets.get(..size).map(|_| (first >= 0x80, size))
}

/// Where a datagram can't be separated: the end, where no PDU follows octet 0; else the length that is 0, cut or too large.
pub fn unseparated(datagram: &[u8]) -> Option<usize> {
    let end = datagram.len();
    if end == 0 || end > LONGEST {
        return Some(end.min(LONGEST));
    }
    if datagram.first() != Some(&0) {
        return None;
    }
    let mut at: usize = 1;
    while at < end || at == 1 {
        let rest = datagram.get(at..).unwrap_or_default();
        match sized(rest) {
            Some(size) => at = at.saturating_add(size),
            None => return Some(at),
        }
    }
    None
}

/// The octets of a length and its PDU at the start of these octets.
fn sized(octets: &[u8]) -> Option<usize> {
    let (before, length) = match octets {
        [high, low, ..] if *high >= 0x80 => (2, usize::from(high & 0x7F) << 8 | usize::from(*low)),
        [length, ..] if *length < 0x80 => (1, usize::from(*length)),
        _ => return None,
    };
    let size = length.checked_add(before).filter(|_| length > 0)?;
    octets.get(..size).map(|_| size)
}
