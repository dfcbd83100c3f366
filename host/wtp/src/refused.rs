//! The numbers of documents 01 and 02, in words.

use std::fmt;

/// Why a call gives nothing back. In all cases but the last it changed nothing that it was lent.
#[derive(Debug, Clone, Copy, PartialEq, Eq)]
pub enum Refused {
    WrongSize,
    WrongTime,
    PeerTooLarge,
    TooLong,
    WrongClass,
    TidInUse,
    TableFull,
    NoRecord,
    NotAllowed,
    WrongSetting,
    WrongLength,
    WrongHeader,
    /// D1 of the codec.
    CutShort,
    /// D2.
    WrongType,
    /// D3.
    ItemPastEnd,
    /// D4.
    TooManyItems,
    /// D5.
    ClassThree,
    /// D6.
    WrongAbortType,
    /// D7.
    BytesLeft,
    /// A number that this wrapper has no words for.
    Unknown(u64),
    /// The call was accepted, but its answer isn't one that the interface describes: wrapper and library don't fit.
    Unreadable,
}

const KNOWN: [(u64, Refused, &str); 19] = [
    (1, Refused::WrongSize, "a lent buffer has the wrong size, or the table isn't well formed"),
    (2, Refused::WrongTime, "the time is below the last accepted one or over the bound"),
    (3, Refused::PeerTooLarge, "the peer is over 255"),
    (4, Refused::TooLong, "the data or the exit information is too long, or none may be given here"),
    (5, Refused::WrongClass, "the class is over 2"),
    (6, Refused::TidInUse, "the next TID is that of a live request"),
    (7, Refused::TableFull, "no record is free"),
    (8, Refused::NoRecord, "there is no live record of that role, peer and TID"),
    (9, Refused::NotAllowed, "the record's state doesn't allow the call, or it isn't due"),
    (10, Refused::WrongSetting, "a setting or the first TID is out of range"),
    (11, Refused::WrongLength, "a length is outside 1 to 1,500, or the datagram can't be separated or joined"),
    (15, Refused::WrongHeader, "a field of the table outside its records is out of range"),
    (101, Refused::CutShort, "the header is cut short, or a value is too wide for its place"),
    (102, Refused::WrongType, "the type is 0 or over 7"),
    (103, Refused::ItemPastEnd, "an item runs past the end"),
    (104, Refused::TooManyItems, "there are more than sixteen items"),
    (105, Refused::ClassThree, "the class is 3"),
    (106, Refused::WrongAbortType, "the abort type is over 1"),
    (107, Refused::BytesLeft, "octets are left after an Ack, Abort or Nack"),
];

impl Refused {
    /// The refusal of this number, as `number` gives it.
    pub fn of(number: u64) -> Refused {
        let known = KNOWN.iter().find(|row| row.0 == number).map(|row| row.1);
        known.unwrap_or(if number == 0 { Refused::Unreadable } else { Refused::Unknown(number) })
    }

    /// The number that the library gave: 0 where it accepted the call with an answer that can't be read.
    pub fn number(self) -> u64 {
        match self {
            Refused::Unknown(number) => number,
            known => KNOWN.iter().find(|row| row.1 == known).map_or(0, |row| row.0),
        }
    }
}

/// What a call's number says.
pub(crate) fn accepted(number: u64) -> Result<(), Refused> {
    match number {
        0 => Ok(()),
        _ => Err(Refused::of(number)),
    }
}

impl fmt::Display for Refused {
    fn fmt(&self, f: &mut fmt::Formatter<'_>) -> fmt::Result {
        match KNOWN.iter().find(|row| row.1 == *self) {
            Some(row) => write!(f, "{} (number {})", row.2, row.0),
            None if *self == Refused::Unreadable => write!(f, "the library's answer can't be read"),
            None => write!(f, "refused with the number {}", self.number()),
        }
    }
}

impl std::error::Error for Refused {}

#[cfg(test)]
mod tests {
    use super::*;

    #[test]
    fn every_number_keeps_its_value() {
        for number in 1..200 {
            assert_eq!(accepted(number).map_err(Refused::number), Err(number));
        }
        assert_eq!(accepted(0), Ok(()));
        assert!([Refused::Unreadable, Refused::Unknown(99), Refused::WrongHeader]
            .iter()
            .all(|one| Refused::of(one.number()) == *one));
        assert_eq!(accepted(12), Err(Refused::Unknown(12)));
    }
}
