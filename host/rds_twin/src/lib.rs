//! docs/RDS.md read plainly, for comparison with the proved library and for nothing else. The calls, their buffers and their
//! numbers are those of include/rds.h; the octets of the book are those of decision 87.
#![forbid(unsafe_code)]

mod ask;
mod book;
mod cursor;
mod frame;
mod octets;
mod parse;
mod receive;
mod row;
mod saying;
#[cfg(test)]
mod tests;
mod transfer;
mod words;

pub use ask::{abandon, again, release, reserve};
pub use book::{port, ports_bytes, ports_fresh};
pub use parse::Malformed;
pub use receive::receive;
pub use row::Row;
pub use saying::write;
pub use transfer::{put, read, take, Sent};

/// What a caller lends to a call over the book.
pub struct Lent<'a> {
    pub book: &'a mut [u8],
    pub out: &'a mut [u8],
    pub answer: &'a mut [u64],
}

/// What a call said: the number (0 accepted), and the row of section 5 or the condition of section 3 that was reached.
#[derive(Clone, Copy, Debug, PartialEq, Eq)]
pub struct Said {
    pub number: u64,
    pub row: Option<Row>,
}

impl Said {
    fn accepted(row: Option<Row>) -> Said {
        Said { number: 0, row }
    }

    fn refused(number: u64) -> Said {
        Said { number, row: None }
    }

    fn malformed(why: Malformed) -> Said {
        Said { number: MALFORMED, row: Some(Row::Malformed(why)) }
    }
}

/// Numbers of section 6.
const WRONG_SIZE: u64 = 1;
const NOTHING_KEPT: u64 = 8;
const NOT_NOW: u64 = 9;
const WRONG_VALUE: u64 = 10;
const WRONG_LENGTH: u64 = 11;
const MALFORMED: u64 = 16;

/// Sizes of section 6.
const FIELDS: usize = 100;
const PART: usize = 8;
const ANSWER: usize = 16;
const OUTPUT: usize = 1523;
const SENDING: usize = 277;
