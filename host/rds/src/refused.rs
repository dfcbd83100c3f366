//! The numbers of docs/RDS.md, in words.

use std::fmt;

/// Why a call gives nothing back. In all cases but the last it changed nothing that it was lent.
#[derive(Debug, Clone, Copy, PartialEq, Eq)]
pub enum Refused {
    WrongSize,
    NothingKept,
    NotNow,
    WrongValue,
    WrongLength,
    /// The frame is malformed; in writing: no frame reads as what was asked for.
    Malformed,
    /// A number that this wrapper has no words for.
    Unknown(u64),
    /// The call was accepted, but its answer isn't one that the interface describes: wrapper and library don't fit.
    Unreadable,
}

const KNOWN: [(u64, Refused, &str); 6] = [
    (1, Refused::WrongSize, "a lent buffer has the wrong size, or the book isn't well formed"),
    (8, Refused::NothingKept, "the port isn't reserved, or no command is outstanding"),
    (9, Refused::NotNow, "a command is outstanding, the port is reserved, or no format is supported"),
    (10, Refused::WrongValue, "a number, a port or formats are out of range"),
    (11, Refused::WrongLength, "a datagram is outside 1 to 1,500 octets, or an Application ID isn't 17 + its octet 16 long"),
    (16, Refused::Malformed, "the frame is malformed"),
];

impl Refused {
    /// The number that the library gave: 0 where it accepted the call with an answer that can't be read.
    pub fn number(self) -> u64 {
        match self {
            Refused::Unknown(number) => number,
            known => KNOWN.iter().find(|row| row.1 == known).map_or(0, |row| row.0),
        }
    }
}

/// What a call's number says.
pub(crate) fn accepted(number: u64) -> Result<(), Refused> {
    if number == 0 {
        return Ok(());
    }
    let known = KNOWN.iter().find(|row| row.0 == number);
    Err(known.map_or(Refused::Unknown(number), |row| row.1))
}

impl fmt::Display for Refused {
    fn fmt(&self, f: &mut fmt::Formatter<'_>) -> fmt::Result {
        match KNOWN.iter().find(|row| row.1 == *self) {
            Some(row) => write!(f, "{} (number {})", row.2, row.0),
            None if *self == Refused::Unreadable => write!(f, "the library's answer can't be read"),
            None => write!(f, "refused with the number {}", self.number()),
        }
    }
}

impl std::error::Error for Refused {}

#[cfg(test)]
mod tests {
    use super::*;

    #[test]
    fn every_number_keeps_its_value() {
        for number in 1..200 {
            assert_eq!(accepted(number).map_err(Refused::number), Err(number));
        }
        assert_eq!(accepted(0), Ok(()));
        assert_eq!(accepted(2), Err(Refused::Unknown(2)));
    }
}
