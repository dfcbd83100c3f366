//! The cases of the Reliable Data Service: a book or none, a call, and the number that it answers. The book lies where the engine's
//! cases have their table.

use crate::call::Call;
use crate::pdus;
use crate::side::{Buffers, Library, Side};
use crate::start::accepted;
use rds::ffi;

/// A call with its arguments.
pub enum Rds {
    Read { frame: Vec<u8> },
    Take { frame: Vec<u8> },
    Put { datagram: Vec<u8> },
    Write { fields: Vec<u64>, bytes: Vec<u8> },
    Fresh,
    Reserve { application: Vec<u8> },
    Receive { frame: Vec<u8> },
    Port,
}

/// Ports of every frame: 3 at the UE, 5 at the network.
pub const OWN: u64 = 3;
pub const PEERS: u64 = 5;

pub const CASES: [&str; 13] = [
    "take a UI frame",
    "put a datagram",
    "read a UI frame",
    "read a Reserve",
    "read a Notify",
    "write a UI frame",
    "write a Reserve",
    "write a Notify",
    "reserve",
    "receive a Reserve",
    "receive a response",
    "receive a Release, 15 ports reserved",
    "tell a port",
];

/// An Application ID of 20 octets, as docs/RDS.md's A.
fn application() -> Vec<u8> {
    [&[0x11; 16][..], &[3], b"wtp"].concat()
}

/// A MANAGE_PORT command of this Action; its first octet is of the UE or of the network.
fn manage_port(first: u8, action: u8, ports: u8) -> Vec<u8> {
    [vec![first, 0x0A, action, ports], application()].concat()
}

fn ui_frame() -> Vec<u8> {
    [vec![0x4A, 0x35], pdus::data()].concat()
}

/// With three entries and a bitmap.
fn notify() -> Vec<u8> {
    let entries = [0x35, 0x46, 0x57].map(|ports| [vec![ports], application()].concat()).concat();
    [vec![0x70, 0x0A, 0x34], entries, vec![0x02, 0x80]].concat()
}

pub fn case(name: &str) -> Result<(Buffers, Call), String> {
    let (start, call) = match name {
        "take a UI frame" => (lent(ffi::PART)?, Rds::Take { frame: ui_frame() }),
        "put a datagram" => (lent(0)?, Rds::Put { datagram: pdus::data() }),
        "read a UI frame" => (lent(ffi::FIELDS)?, Rds::Read { frame: ui_frame() }),
        "read a Reserve" => (lent(ffi::FIELDS)?, Rds::Read { frame: manage_port(0x70, 1, 0x35) }),
        "read a Notify" => (lent(ffi::FIELDS)?, Rds::Read { frame: notify() }),
        "write a UI frame" => write(ui_frame())?,
        "write a Reserve" => write(manage_port(0x70, 1, 0x35))?,
        "write a Notify" => write(notify())?,
        "reserve" => (lent(0)?, Rds::Reserve { application: application() }),
        "receive a Reserve" => (lent(0)?, Rds::Receive { frame: manage_port(0x74, 1, 0x53) }),
        "receive a response" => (after(&[Rds::Reserve { application: application() }])?, response()),
        "receive a Release, 15 ports reserved" => {
            let all: Vec<_> = (1..16).map(|own| Rds::Receive { frame: manage_port(0x74, 1, 0x50 | own) }).collect();
            (after(&all)?, Rds::Receive { frame: manage_port(0x74, 2, 0x5F) })
        }
        _ => (after(&[Rds::Reserve { application: application() }, response()])?, Rds::Port),
    };
    Ok((start, Call::Rds(call)))
}

/// Success of our Reserve.
fn response() -> Rds {
    Rds::Receive { frame: vec![0x70, 0x0A, 0x01, 0x00] }
}

/// A fresh book of the UE, and buffers for all calls.
fn lent(words: usize) -> Result<Buffers, String> {
    let book = vec![0; ffi::ports_bytes() as usize];
    let (out, answer) = (vec![0; ffi::OUTPUT], vec![0; ffi::ANSWER]);
    let mut lent = Buffers { table: book, store: vec![], out, answer, words: vec![0; words] };
    accepted("a fresh book", Library.rds(&mut lent, &Rds::Fresh))?;
    Ok(lent)
}

/// A fresh book after these calls of the library.
fn after(calls: &[Rds]) -> Result<Buffers, String> {
    let mut lent = lent(0)?;
    calls.iter().try_for_each(|call| accepted("a call over the book", Library.rds(&mut lent, call)))?;
    Ok(lent)
}

/// Writes what the library reads.
fn write(frame: Vec<u8>) -> Result<(Buffers, Rds), String> {
    let mut read = lent(ffi::FIELDS)?;
    accepted("read", ffi::read(&frame, 0, &mut read.words))?;
    Ok((lent(0)?, Rds::Write { fields: read.words, bytes: frame }))
}

#[cfg(test)]
mod tests {
    use super::*;

    /// Length and event of the answer.
    fn said(name: &str) -> (u64, u64) {
        let (mut lent, call) = case(name).unwrap();
        assert_eq!(call.make(&Library, &mut lent), 0, "{name}");
        (lent.answer[0], lent.answer[1])
    }

    #[test]
    fn each_call_over_the_book_does_what_its_name_says() {
        assert_eq!((said("reserve"), said("put a datagram")), ((24, 0), (102, 0)));
        assert_eq!((said("receive a Reserve"), said("receive a response")), ((4, 1), (0, 2)));
        assert_eq!(said("receive a Release, 15 ports reserved"), (4, 1));
        assert_eq!((said("tell a port"), said("write a Notify")), ((20, 0), (68, 0)));
    }
}
