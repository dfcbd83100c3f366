//! One call of the engine: what it is asked, and the library's function for it.

use wtp::ffi::{self, Lent, Record};

pub struct Call {
    pub end: usize,
    pub now: u64,
    pub event: Event,
    /// Data, exit information or PDU; None: the PDU that the other end sent last.
    pub octets: Option<Vec<u8>>,
}

/// A deadline takes no time, and its words lie in the answer that is lent.
#[derive(Clone, Copy)]
pub enum Event {
    Request { peer: u64, class: u64, user_ack: u64 },
    Answer(Record),
    Result(Record),
    Abort(Record, u8),
    Receive { peer: u64 },
    Timer,
    Fire(Record),
    Deadline,
}

/// What calls go to: event, time, octets and buffers in, the number out.
pub type Engine = fn(Event, u64, &[u8], Lent) -> u64;

/// What salvage goes to: the table and the list in, the number out.
pub type Salvage = fn(&mut [u8], &mut [u64]) -> u64;

pub fn library(event: Event, now: u64, octets: &[u8], lent: Lent) -> u64 {
    match event {
        Event::Request { peer, class, user_ack } => ffi::request(lent, now, peer, class, user_ack, octets),
        Event::Answer(of) => ffi::answer(lent, now, of, octets),
        Event::Result(of) => ffi::result(lent, now, of, octets),
        Event::Abort(of, reason) => ffi::abort(lent, now, of, reason),
        Event::Receive { peer } => ffi::receive(lent, now, peer, octets),
        Event::Timer => ffi::timer(lent, now),
        Event::Fire(of) => ffi::fire(lent, now, of),
        Event::Deadline => ffi::deadline(lent.table, lent.answer),
    }
}
