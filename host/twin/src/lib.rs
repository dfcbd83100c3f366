//! Document 01, and the landed requests of document 02, read plainly, for comparison with the proved library and for nothing else.
//! The calls, their buffers and their numbers are those of include/wtp.h; the table is that of docs/TABLE.md.
#![forbid(unsafe_code)]

mod answer;
mod bounds;
mod data;
mod datagram;
mod engine;
mod event;
mod fresh;
mod initiator;
mod items;
mod listen;
mod named;
mod octets;
mod output;
mod pdu;
mod primitives;
mod reading;
mod receive;
mod record;
mod request;
mod responder;
mod row;
mod salvage;
mod sending;
mod table;
#[cfg(test)]
mod tests;
mod timer;
mod transaction;
mod words;
mod writing;

pub use data::data;
pub use datagram::{join, read_part, separate};
pub use fresh::{fresh, table_bytes};
pub use primitives::{abort, answer, result};
pub use reading::read;
pub use receive::receive;
pub use request::request;
pub use row::Row;
pub use salvage::salvage;
pub use timer::{deadline, fire, timer};
pub use writing::write;

/// What a caller lends to a call of the engine.
pub struct Lent<'a> {
    pub table: &'a mut [u8],
    pub store: &'a mut [u8],
    pub out: &'a mut [u8],
    pub answer: &'a mut [u64],
}

/// What a call of the engine said: the number (0 accepted), and the row or the refusal that was reached.
#[derive(Clone, Copy, Debug, PartialEq, Eq)]
pub struct Said {
    pub number: u64,
    pub row: Row,
}
