//! The two sides: the same call to the proved library and to the twin.

use super::call::{Call, Kind};
use super::pair::Buffers;
use rds::ffi;
use rds_twin::Said;

pub type Side = fn(&Call, &mut Buffers) -> Said;

pub fn library(call: &Call, buffers: &mut Buffers) -> Said {
    let (book, out, words) = buffers.lend(call.sizes);
    let octets = &call.octets;
    let number = match call.kind {
        Kind::Read { from_network } => ffi::read(octets, from_network, words),
        Kind::Take { from_network } => ffi::take(octets, from_network, words),
        Kind::Write { from_network } => ffi::write(&call.fields, octets, from_network, out, words),
        Kind::Put { ports, source, destination, number } => {
            ffi::put(octets, ffi::Sent { ports, source, destination, number }, out, words)
        }
        Kind::Bytes => ffi::ports_bytes(),
        Kind::Fresh { network, formats } => ffi::ports_fresh(book, network, formats),
        Kind::Reserve { own, peers, with_format } => {
            ffi::reserve(ffi::Lent { book, out, answer: words }, own, peers, with_format, octets)
        }
        Kind::Release { own } => ffi::release(ffi::Lent { book, out, answer: words }, own),
        Kind::Again => ffi::again(book, out, words),
        Kind::Abandon => ffi::abandon(book),
        Kind::Receive => ffi::receive(ffi::Lent { book, out, answer: words }, octets),
        Kind::Port { port } => ffi::port(book, port, out, words),
    };
    Said { number, row: None }
}

pub fn twin(call: &Call, buffers: &mut Buffers) -> Said {
    let (book, out, words) = buffers.lend(call.sizes);
    let octets = &call.octets;
    match call.kind {
        Kind::Read { from_network } => rds_twin::read(octets, from_network, words),
        Kind::Take { from_network } => rds_twin::take(octets, from_network, words),
        Kind::Write { from_network } => rds_twin::write(&call.fields, octets, from_network, out, words),
        Kind::Put { ports, source, destination, number } => {
            rds_twin::put(octets, rds_twin::Sent { ports, source, destination, number }, out, words)
        }
        Kind::Bytes => Said { number: rds_twin::ports_bytes(), row: None },
        Kind::Fresh { network, formats } => rds_twin::ports_fresh(book, network, formats),
        Kind::Reserve { own, peers, with_format } => {
            rds_twin::reserve(rds_twin::Lent { book, out, answer: words }, own, peers, with_format, octets)
        }
        Kind::Release { own } => rds_twin::release(rds_twin::Lent { book, out, answer: words }, own),
        Kind::Again => rds_twin::again(book, out, words),
        Kind::Abandon => rds_twin::abandon(book),
        Kind::Receive => rds_twin::receive(rds_twin::Lent { book, out, answer: words }, octets),
        Kind::Port { port } => rds_twin::port(book, port, out, words),
    }
}
