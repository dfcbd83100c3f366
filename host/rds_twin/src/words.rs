//! The words of a frame (section 6).

use crate::frame::{Body, Entry, Frame, Kind, Managed, Part, Ports};
use crate::FIELDS;

/// Where the words of entry k begin: 24 + 5k.
pub fn entry_at(k: usize) -> usize {
    24 + 5 * k
}

pub fn words(frame: &Frame) -> [u64; FIELDS] {
    let mut words = [0; FIELDS];
    if let Some(ports) = frame.ports {
        words[1] = 1;
        put_ports(&mut words, 2, ports);
    }
    match &frame.kind {
        Kind::I { a, ns, nr, r, information } => {
            words[0] = 1;
            put(&mut words, [(4, u64::from(*a)), (5, (*ns).into()), (6, (*nr).into()), (7, (*r).into())]);
            put_part(&mut words, 11, *information);
        }
        Kind::S { a, nr, r } => {
            words[0] = 2;
            put(&mut words, [(4, u64::from(*a)), (6, (*nr).into()), (7, (*r).into())]);
        }
        Kind::Ui { nu, information } => {
            words[0] = 3;
            words[8] = (*nu).into();
            put_part(&mut words, 11, *information);
        }
        Kind::U { response, body } => {
            put(&mut words, [(0, 4), (9, body.m().into()), (10, u64::from(*response))]);
            put_body(&mut words, body);
        }
    }
    words
}

fn put_body(words: &mut [u64; FIELDS], body: &Body) {
    match body {
        Body::Error | Body::Disconnect => (),
        Body::Accept(part) | Body::SetAckMode(part) | Body::SetParameters(part) => put_part(words, 11, *part),
        Body::ManagePort { action, managed } => {
            words[13] = (*action).into();
            put_managed(words, managed);
        }
    }
}

fn put_managed(words: &mut [u64; FIELDS], managed: &Managed) {
    match managed {
        Managed::Command { ports, application, format } => {
            put_ports(words, 15, *ports);
            put_part(words, 17, *application);
            words[19] = format.unwrap_or(0).into();
        }
        Managed::Response { format, status } => {
            words[14] = (*status).into();
            words[19] = format.unwrap_or(0).into();
        }
        Managed::Query { bitmap } => put_bitmap(words, *bitmap),
        Managed::List { entries, bitmap } => {
            put_bitmap(words, *bitmap);
            words[22] = entries.len() as u64;
            entries.iter().enumerate().for_each(|(k, entry)| put_entry(words, entry_at(k), entry));
        }
    }
}

fn put_entry(words: &mut [u64; FIELDS], at: usize, entry: &Entry) {
    put_ports(words, at, entry.ports);
    put_part(words, at + 2, entry.application);
    words[at + 4] = entry.format.unwrap_or(0).into();
}

fn put_bitmap(words: &mut [u64; FIELDS], bitmap: Option<u16>) {
    put(words, [(20, u64::from(bitmap.is_some())), (21, bitmap.unwrap_or(0).into())]);
}

fn put_ports(words: &mut [u64; FIELDS], at: usize, ports: Ports) {
    put(words, [(at, ports.source.into()), (at + 1, ports.destination.into())]);
}

fn put_part(words: &mut [u64; FIELDS], at: usize, part: Part) {
    put(words, [(at, part.start as u64), (at + 1, part.length as u64)]);
}

fn put<const N: usize>(words: &mut [u64; FIELDS], values: [(usize, u64); N]) {
    values.into_iter().for_each(|(at, value)| words[at] = value);
}
