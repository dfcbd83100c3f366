//! The tables from which the engine's calls are measured. The library makes them: every call on the way is accepted or named.

use crate::pdus;
use crate::side::{Buffers, Library, Side};
use wtp::ffi;

/// RCR_MAX, AEC_MAX, A, W, then R of class 1 and of class 2. Class 1 is sent again first.
const COUNTERS: u64 = 4;
const INTERVAL: u64 = 10_000;
pub const R_CLASS_1: u64 = 5_000;

/// The time of every call before the one that is measured.
pub const BEFORE: u64 = 1;

fn settings() -> [u64; ffi::SETTINGS] {
    let mut words = [0; ffi::SETTINGS];
    let rows = [COUNTERS, COUNTERS, INTERVAL, INTERVAL].into_iter().chain([R_CLASS_1; 9]).chain([INTERVAL; 9]);
    words.iter_mut().zip(rows).for_each(|(word, value)| *word = value);
    words
}

/// Names a call that was refused where it mustn't be.
pub fn accepted(call: &str, number: u64) -> Result<(), String> {
    match number {
        0 => Ok(()),
        _ => Err(format!("{call} on the way to a case was refused with {number}")),
    }
}

/// Buffers for the codec, which is lent no table and no store.
pub fn codec(words: usize) -> Buffers {
    Buffers { table: vec![], store: vec![], out: vec![0; ffi::OUTPUT], answer: vec![0; ffi::ANSWER], words: vec![0; words] }
}

fn fresh(records: u64) -> Result<Buffers, String> {
    let mut table = vec![0; ffi::table_bytes(records) as usize];
    accepted("fresh", ffi::fresh(&mut table, &settings(), 0))?;
    let store = vec![0; records as usize * ffi::CELL];
    Ok(Buffers { table, store, out: vec![0; ffi::SENDING], answer: vec![0; ffi::ANSWER], words: vec![0; ffi::DUE] })
}

fn request(lent: &mut Buffers, class: u64) -> Result<(), String> {
    accepted("request", Library.request(lent, BEFORE, class, &pdus::data()))
}

fn receive(lent: &mut Buffers, pdu: &[u8]) -> Result<(), String> {
    accepted("receive", Library.receive(lent, BEFORE, pdu))
}

/// A table with this many live initiator records of class 2, TIDs 0 and on, that wait for their result.
pub fn initiators(records: u64, live: u8) -> Result<Buffers, String> {
    let mut lent = fresh(records)?;
    for _ in 0..live {
        request(&mut lent, 2)?;
    }
    Ok(lent)
}

/// A full table of initiator records of which the last, of class 1, is due first.
pub fn last_due_first(records: u8) -> Result<Buffers, String> {
    let mut lent = initiators(records.into(), records - 1)?;
    request(&mut lent, 1)?;
    Ok(lent)
}

/// A full table of initiator records of which the last has shown its result, which this PDU brought.
pub fn last_has_its_result(records: u8, result: &[u8]) -> Result<Buffers, String> {
    let mut lent = initiators(records.into(), records)?;
    receive(&mut lent, result)?;
    Ok(lent)
}

/// A table with this many live responder records of class 2, TIDs 1 and on, whose Invoke was shown. TID 0 was verified before,
/// so that theirs are valid, and aborted.
pub fn responders(records: u64, live: u8) -> Result<Buffers, String> {
    let mut lent = fresh(records)?;
    for pdu in [pdus::invoke(0), pdus::tidok(0), pdus::abort(0)] {
        receive(&mut lent, &pdu)?;
    }
    for tid in 1..=live {
        receive(&mut lent, &pdus::invoke(tid))?;
    }
    Ok(lent)
}
