//! PDUs and datagrams: reading, writing, separating and joining.

use crate::ffi;
use crate::refused::{accepted, Refused};
use crate::taken::part;
use crate::unknown::{self, Unknown};

/// Places of the words of a PDU.
pub mod word {
    pub const TYPE: usize = 0;
    pub const GTR: usize = 1;
    pub const TTR: usize = 2;
    pub const RID: usize = 3;
    pub const TID: usize = 4;
    pub const VERSION: usize = 5;
    pub const TID_NEW: usize = 6;
    pub const USER_ACK: usize = 7;
    pub const CLASS: usize = 8;
    pub const TVE: usize = 9;
    pub const ABORT_TYPE: usize = 10;
    pub const ABORT_REASON: usize = 11;
    pub const PACKET: usize = 12;
    pub const NACK_COUNT: usize = 13;
    pub const NACK_START: usize = 14;
    pub const ITEMS: usize = 15;
    pub const USER_START: usize = 16;
    pub const USER_LENGTH: usize = 17;
    pub const UNKNOWN_IDENTITY: usize = 18;
    pub const UNKNOWN_PLACE: usize = 19;
    /// Item k has the four words from `ITEM` + 4k on: identity, 1 for the long form, start and length of its data.
    pub const ITEM: usize = 24;
}

/// The words of a PDU; starts count in the octets that were read or are handed on with them.
pub type Fields = [u64; ffi::FIELDS];

/// Reads a PDU.
pub fn read(pdu: &[u8]) -> Result<Fields, Refused> {
    let mut fields = [0; ffi::FIELDS];
    accepted(ffi::read(pdu, &mut fields))?;
    Ok(fields)
}

/// The first unknown item of a PDU that was read.
pub fn unknown(fields: &Fields) -> Option<Unknown> {
    unknown::unknown(fields[word::UNKNOWN_IDENTITY], fields[word::UNKNOWN_PLACE]).flatten()
}

/// Writes the PDU that the words say; its Nack list, items and user data lie in `bytes`.
pub fn write(fields: &Fields, bytes: &[u8]) -> Result<Vec<u8>, Refused> {
    written(|out, answer| ffi::write(fields, bytes, out, answer))
}

/// The PDUs of a datagram, in order.
pub fn separate(datagram: &[u8]) -> Result<Vec<&[u8]>, Refused> {
    let [_, _, count] = place(datagram, 0)?;
    let nth = |k| {
        let [start, length, _] = place(datagram, k)?;
        part(datagram, start, length).ok_or(Refused::Unreadable)
    };
    (0..count).map(nth).collect()
}

/// Reads the k-th PDU of a datagram; starts count from its first octet.
pub fn read_part(datagram: &[u8], k: u64) -> Result<Fields, Refused> {
    let mut fields = [0; ffi::FIELDS];
    accepted(ffi::read_part(datagram, k, &mut fields))?;
    Ok(fields)
}

/// The datagram of these PDUs.
pub fn join(pdus: &[&[u8]]) -> Result<Vec<u8>, Refused> {
    let lengths = pdus.iter().map(|pdu| u64::try_from(pdu.len())).collect::<Result<Vec<_>, _>>();
    let lengths = lengths.map_err(|_| Refused::WrongLength)?;
    written(|out, answer| ffi::join(&pdus.concat(), &lengths, out, answer))
}

fn place(datagram: &[u8], k: u64) -> Result<[u64; ffi::PART], Refused> {
    let mut words = [0; ffi::PART];
    accepted(ffi::separate(datagram, k, &mut words))?;
    Ok(words)
}

/// What a call wrote at the start of the output that it was lent.
fn written(call: impl FnOnce(&mut [u8], &mut [u64]) -> u64) -> Result<Vec<u8>, Refused> {
    let (mut out, mut answer) = ([0; ffi::OUTPUT], [0; ffi::ANSWER]);
    accepted(call(&mut out, &mut answer))?;
    let [length, ..] = answer;
    part(&out, 0, length).map(<[u8]>::to_vec).ok_or(Refused::Unreadable)
}
