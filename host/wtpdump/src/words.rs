//! One PDU in document 01's words.

use crate::hex::spaced;
use crate::walk::fault;
use wtp::codec::{self, word, Fields};
use wtp::{Reason, Refused};

/// How much of a PDU's data is shown.
#[derive(Debug, Clone, Copy, PartialEq, Eq)]
pub enum Length {
    Short,
    All,
}

const SHORT: usize = 32;
const NAMES: [&str; 8] = ["type 0", "Invoke", "Result", "Ack", "Abort", "Segmented Invoke", "Segmented Result", "Nack"];
/// The identities of section 8.4; all others are unknown.
const ITEM_NAMES: [&str; 6] = ["Error", "Info", "Option", "Packet Sequence Number", "SDU Boundary", "Frame Boundary"];
const ERROR: u64 = 0;
const REASONS: [(u8, &str); 6] = [
    (1, "PROTOERR"),
    (2, "INVALIDTID"),
    (4, "NOTIMPLEMENTEDSAR"),
    (6, "WTPVERSIONONE"),
    (7, "CAPTEMPEXCEEDED"),
    (8, "NORESPONSE"),
];

/// The words for a PDU that begins at octet `start` of its datagram; those of Err say how it is malformed.
pub fn pdu(octets: &[u8], start: usize, length: Length) -> Result<String, String> {
    match codec::read(octets) {
        Ok(fields) => Ok(sound(&fields, octets, length)),
        Err(refused) => Err(malformed(refused, octets, start, length)),
    }
}

fn sound(fields: &Fields, pdu: &[u8], length: Length) -> String {
    let at = |place: usize| fields.get(place).copied().unwrap_or(0);
    let flags = format!("GTR {} TTR {} RID {}", at(word::GTR), at(word::TTR), at(word::RID));
    let rid = format!("RID {}", at(word::RID));
    let packet = format!("packet {}", at(word::PACKET));
    let mut words = match at(word::TYPE) {
        1 => vec![flags, invoke(fields)],
        2 => vec![flags],
        3 => vec![format!("Tve/Tok {}", at(word::TVE)), rid],
        4 => vec![abort(at(word::ABORT_TYPE), at(word::ABORT_REASON))],
        5 | 6 => vec![flags, packet],
        _ => vec![rid, nack(fields, pdu)],
    };
    words.insert(0, tid(at(word::TID)));
    words.insert(0, name(at(word::TYPE), at(word::TVE), at(word::TID)).to_string());
    words.extend((0..at(word::ITEMS)).map(|k| item(fields, pdu, k, length)));
    if matches!(at(word::TYPE), 1 | 2 | 5 | 6) {
        words.push(format!("data {}", data(part(pdu, at(word::USER_START), at(word::USER_LENGTH)), length)));
    }
    words.join(", ")
}

/// What a PDU is called; an Ack with Tve/Tok set has its own name in each direction.
fn name(kind: u64, tve: u64, tid: u64) -> &'static str {
    match (kind, tve, tid >> 15) {
        (3, 1, 1) => "Ack TIDve",
        (3, 1, _) => "Ack TIDok",
        _ => usize::try_from(kind).ok().and_then(|kind| NAMES.get(kind)).copied().unwrap_or("type over 7"),
    }
}

fn tid(tid: u64) -> String {
    let end = if tid >> 15 == 0 { "responder" } else { "initiator" };
    format!("TID {} towards the {end}", tid & 0x7FFF)
}

fn invoke(fields: &Fields) -> String {
    let at = |place: usize| fields.get(place).copied().unwrap_or(0);
    let (version, tid_new) = (at(word::VERSION), at(word::TID_NEW));
    format!("version {version}, TIDnew {tid_new}, U/P {}, class {}", at(word::USER_ACK), at(word::CLASS))
}

fn abort(kind: u64, reason: u64) -> String {
    let octet = u8::try_from(reason).unwrap_or(u8::MAX);
    let known = REASONS.iter().find(|(number, _)| kind == 0 && *number == octet);
    match known {
        Some((_, name)) => format!("by the provider, reason {octet} {name}: {}", Reason::from(octet)),
        None if kind == 0 => format!("by the provider, reason {octet}"),
        None => format!("by the user, reason {octet}"),
    }
}

fn nack(fields: &Fields, pdu: &[u8]) -> String {
    let [count, start] = [word::NACK_COUNT, word::NACK_START].map(|place| fields.get(place).copied().unwrap_or(0));
    let missing: String = part(pdu, start, count).iter().map(|packet| format!(" {packet}")).collect();
    let colon = if missing.is_empty() { "" } else { ":" };
    format!("packets missing {count}{colon}{missing}")
}

fn item(fields: &Fields, pdu: &[u8], k: u64, length: Length) -> String {
    let first = usize::try_from(k).ok().and_then(|k| k.checked_mul(4)).and_then(|k| k.checked_add(word::ITEM));
    match first.and_then(|first| fields.get(first..)) {
        Some([identity, long, start, count, ..]) => {
            let form = if *long == 0 { "short" } else { "long" };
            let octets = part(pdu, *start, *count);
            let (name, error) = (item_name(*identity), if *identity == ERROR { error(octets) } else { String::new() });
            format!("item {}: identity {identity} {name}{error}, {form}, {}", k.saturating_add(1), data(octets, length))
        }
        _ => format!("item {}", k.saturating_add(1)),
    }
}

fn item_name(identity: u64) -> &'static str {
    usize::try_from(identity).ok().and_then(|identity| ITEM_NAMES.get(identity)).copied().unwrap_or("unknown")
}

/// The code of an Error item and the identity that it is about, which share its first octet.
fn error(octets: &[u8]) -> String {
    match octets.first() {
        Some(octet) => {
            let meaning = match octet >> 4 {
                1 => " (unknown item)",
                2 => " (unknown content of a known item)",
                _ => "",
            };
            format!(", error code {}{meaning} for identity {}", octet >> 4, octet & 15)
        }
        None => ", no error code".to_string(),
    }
}

fn part(pdu: &[u8], start: u64, length: u64) -> &[u8] {
    let range = usize::try_from(start).ok().zip(usize::try_from(start.saturating_add(length)).ok());
    range.and_then(|(start, end)| pdu.get(start..end)).unwrap_or_default()
}

/// Octets as a count, digits and text.
pub fn data(octets: &[u8], length: Length) -> String {
    let count = match octets.len() {
        0 => return "0 octets".to_string(),
        1 => "1 octet".to_string(),
        more => format!("{more} octets"),
    };
    let (shown, dots) = shortened(octets, length);
    let text: String = shown.iter().map(|octet| printable(*octet)).collect();
    format!("{count}: {}{dots} \"{text}\"{dots}", spaced(shown))
}

/// The octets that are shown, and dots where there are more.
pub fn shortened(octets: &[u8], length: Length) -> (&[u8], &'static str) {
    match octets.get(..SHORT) {
        Some(shown) if length == Length::Short && octets.len() > SHORT => (shown, " ..."),
        _ => (octets, ""),
    }
}

/// A character that can't be mistaken for the end of the text.
fn printable(octet: u8) -> char {
    let character = char::from(octet);
    if (character.is_ascii_graphic() || character == ' ') && character != '"' {
        character
    } else {
        '.'
    }
}

fn malformed(refused: Refused, pdu: &[u8], start: usize, length: Length) -> String {
    let found = fault(pdu).filter(|fault| fault.refused == refused);
    let place = found.map(|fault| place(fault.at, start)).unwrap_or_default();
    let (shown, dots) = shortened(pdu, length);
    format!("malformed {}{place}: {}{}: {}{dots}", rule(refused), why(refused), header(pdu), spaced(shown))
}

fn place(at: usize, start: usize) -> String {
    match start {
        0 => format!(" at octet {at}"),
        start => format!(" at octet {at} (octet {} of the datagram)", at.saturating_add(start)),
    }
}

/// Type and TID, which the engine looks at in a malformed PDU too.
fn header(pdu: &[u8]) -> String {
    match pdu {
        [first, high, low, ..] => {
            let kind = u64::from(first >> 3 & 15);
            let name = name(kind, 0, 0);
            format!(" ({name}, {})", tid(u64::from(u16::from_be_bytes([*high, *low]))))
        }
        _ => String::new(),
    }
}

fn rule(refused: Refused) -> String {
    match refused.number() {
        number @ 101..=107 => format!("D{}", number.saturating_sub(100)),
        number => format!("number {number}"),
    }
}

/// The rule in reading; what the wrapper says covers writing too.
fn why(refused: Refused) -> String {
    let words = match refused {
        Refused::CutShort => "the fixed header is cut short",
        Refused::WrongType => "the type is 0 or over 7",
        Refused::ItemPastEnd => "an item runs past the end",
        Refused::TooManyItems => "the sixteenth item has CON set",
        Refused::ClassThree => "the class is 3",
        Refused::WrongAbortType => "the abort type is over 1",
        Refused::BytesLeft => "octets are left after an Ack, Abort or Nack",
        other => return other.to_string(),
    };
    words.to_string()
}
