//! The two sides: the same call to the proved library and to the twin.

use crate::buffers::{Buffers, Lent};
use crate::calls::{Call, Kind, Name};
use twin::Row;
use wtp::ffi;

/// What a side said: the number, and the row that was reached where the side tells one.
#[derive(Clone, Copy, Debug, PartialEq, Eq)]
pub struct Said {
    pub number: u64,
    pub row: Option<Row>,
}

pub type Side = fn(&Call, &mut Buffers) -> Said;

impl<'a> From<Lent<'a>> for ffi::Lent<'a> {
    fn from(lent: Lent<'a>) -> ffi::Lent<'a> {
        ffi::Lent { table: lent.table, store: lent.store, out: lent.out, answer: lent.words }
    }
}

impl<'a> From<Lent<'a>> for twin::Lent<'a> {
    fn from(lent: Lent<'a>) -> twin::Lent<'a> {
        twin::Lent { table: lent.table, store: lent.store, out: lent.out, answer: lent.words }
    }
}

impl From<Name> for ffi::Record {
    fn from(name: Name) -> ffi::Record {
        ffi::Record { role: name.role, peer: name.peer, tid: name.tid }
    }
}

impl From<twin::Said> for Said {
    fn from(said: twin::Said) -> Said {
        Said { number: said.number, row: Some(said.row) }
    }
}

fn without_row(number: u64) -> Said {
    Said { number, row: None }
}

pub fn library(call: &Call, buffers: &mut Buffers) -> Said {
    let lent = buffers.lend(call.sizes);
    let octets = &call.octets;
    without_row(match call.kind {
        Kind::TableBytes { records } => ffi::table_bytes(records),
        Kind::Fresh { first_tid } => ffi::fresh(lent.table, &call.words, first_tid),
        Kind::Request { now, peer, class, user_ack } => ffi::request(lent.into(), now, peer, class, user_ack, octets),
        Kind::Answer { now, of } => ffi::answer(lent.into(), now, of.into(), octets),
        Kind::Result { now, of } => ffi::result(lent.into(), now, of.into(), octets),
        Kind::Abort { now, of, reason } => ffi::abort(lent.into(), now, of.into(), reason),
        Kind::Receive { now, peer } => ffi::receive(lent.into(), now, peer, octets),
        Kind::Timer { now } => ffi::timer(lent.into(), now),
        Kind::Deadline => ffi::deadline(lent.table, lent.words),
        Kind::Salvage => ffi::salvage(lent.table, lent.words),
        Kind::Fire { now, of } => ffi::fire(lent.into(), now, of.into()),
        Kind::Read => ffi::read(octets, lent.words),
        Kind::Write => ffi::write(&call.words, octets, lent.out, lent.words),
        Kind::Separate { k } => ffi::separate(octets, k, lent.words),
        Kind::Join => ffi::join(octets, &call.words, lent.out, lent.words),
        Kind::ReadPart { k } => ffi::read_part(octets, k, lent.words),
        Kind::Data { k } => ffi::data(octets, lent.store, &call.words, k, lent.out),
    })
}

pub fn twin(call: &Call, buffers: &mut Buffers) -> Said {
    let lent = buffers.lend(call.sizes);
    let octets = &call.octets;
    match call.kind {
        Kind::TableBytes { records } => without_row(twin::table_bytes(records)),
        Kind::Fresh { first_tid } => without_row(twin::fresh(lent.table, &call.words, first_tid)),
        Kind::Request { now, peer, class, user_ack } => twin::request(lent.into(), now, peer, class, user_ack, octets).into(),
        Kind::Answer { now, of } => twin::answer(lent.into(), now, of.role, of.peer, of.tid, octets).into(),
        Kind::Result { now, of } => twin::result(lent.into(), now, of.role, of.peer, of.tid, octets).into(),
        Kind::Abort { now, of, reason } => twin::abort(lent.into(), now, of.role, of.peer, of.tid, reason).into(),
        Kind::Receive { now, peer } => twin::receive(lent.into(), now, peer, octets).into(),
        Kind::Timer { now } => twin::timer(lent.into(), now).into(),
        Kind::Deadline => twin::deadline(lent.table, lent.words).into(),
        Kind::Salvage => twin::salvage(lent.table, lent.words).into(),
        Kind::Fire { now, of } => twin::fire(lent.into(), now, of.role, of.peer, of.tid).into(),
        Kind::Read => without_row(twin::read(octets, lent.words)),
        Kind::Write => without_row(twin::write(&call.words, octets, lent.out, lent.words)),
        Kind::Separate { k } => without_row(twin::separate(octets, k, lent.words)),
        Kind::Join => without_row(twin::join(octets, &call.words, lent.out, lent.words)),
        Kind::ReadPart { k } => without_row(twin::read_part(octets, k, lent.words)),
        Kind::Data { k } => without_row(twin::data(octets, lent.store, &call.words, k, lent.out)),
    }
}
