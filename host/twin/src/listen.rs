//! An Invoke without a live record.

use crate::answer::{Data, Indication};
use crate::bounds;
use crate::engine::Engine;
use crate::pdu::{Flags, Invoke, Part};
use crate::record::{Class, Name, Record, ResponderState, State};
use crate::sending::{self, CAPTEMPEXCEEDED, NOTIMPLEMENTEDSAR, PROVIDER, WTPVERSIONONE};
use crate::transaction::Transaction;
use crate::Row;

/// A well-formed Invoke that names no live record.
pub struct First<'p> {
    pub flags: Flags,
    pub invoke: Invoke,
    pub data: Part,
    /// The identity of its first unknown item, 0 where it has none.
    pub unknown: u8,
    pub octets: &'p [u8],
}

pub fn invoke(engine: &mut Engine, name: Name, first: &First) -> Row {
    match first.invoke.class {
        0 => class_0(engine, name, first),
        1 => opening(engine, name, Class::One, first),
        _ => opening(engine, name, Class::Two, first),
    }
}

enum Failed {
    Version,
    TtrClear,
    TooLong,
}

/// The second to fourth test; the first was whether it is malformed.
fn failed_test(first: &First) -> Option<Failed> {
    if first.invoke.version != 0 {
        Some(Failed::Version)
    } else if !first.flags.ttr {
        Some(Failed::TtrClear)
    } else if first.data.length > bounds::CELL {
        Some(Failed::TooLong)
    } else {
        None
    }
}

fn class_0(engine: &mut Engine, name: Name, first: &First) -> Row {
    match failed_test(first) {
        Some(Failed::Version) => Row::InvokeClass0Version,
        Some(Failed::TtrClear) => Row::InvokeClass0TtrClear,
        Some(Failed::TooLong) => Row::InvokeClass0TooLong,
        None => {
            show(engine, name, first);
            Row::InvokeClass0
        }
    }
}

fn show(engine: &mut Engine, name: Name, first: &First) {
    let Invoke { class, user_ack, .. } = first.invoke;
    engine.show(name, Indication::Invoke { class, user_ack, data: Data::Datagram(first.data) });
}

fn opening(engine: &mut Engine, name: Name, class: Class, first: &First) -> Row {
    let (reason, row) = match failed_test(first) {
        Some(Failed::Version) => (WTPVERSIONONE, Row::InvokeVersion),
        Some(Failed::TtrClear) => (NOTIMPLEMENTEDSAR, Row::InvokeTtrClear),
        Some(Failed::TooLong) => (CAPTEMPEXCEEDED, Row::InvokeTooLong),
        None => return test_tid(engine, name, class, first),
    };
    engine.send(&sending::abort(PROVIDER, reason, name));
    row
}

fn test_tid(engine: &mut Engine, name: Name, class: Class, first: &First) -> Row {
    let place = match engine.table.free_place() {
        Some(place) => place,
        None => return Row::InvokeTableFull,
    };
    let state = State::Responder(ResponderState::TidokWait(class));
    let record = Record { unknown: first.unknown, ..Record::new(state, name.peer, name.tid, first.invoke.user_ack) };
    let at = Transaction { engine, place, record };
    let row = match (at.engine.table.last_tid(name.peer), first.invoke.tidnew) {
        (Some(last), false) if is_valid(name.tid, last) => return valid(at, class, first),
        (Some(_), false) => Row::InvokeVerified,
        (None, false) => Row::InvokeNothingCached,
        (Some(_), true) => Row::InvokeRestarted,
        (None, true) => Row::InvokeRestartedNothingCached,
    };
    if first.invoke.tidnew {
        at.engine.table.drop_last_tid(name.peer);
    }
    verify(at, first);
    row
}

/// The distance from the cached TID, modulo 32,768, is 1 to 16,383.
fn is_valid(tid: u16, last: u16) -> bool {
    (1..=16_383).contains(&(tid.wrapping_sub(last) % 32_768))
}

fn valid(mut at: Transaction, class: Class, first: &First) -> Row {
    let name = at.name();
    at.engine.table.set_last_tid(name.peer, name.tid);
    show(at.engine, name, first);
    at.await_answer(class);
    at.engine.table.put(at.place, &at.record);
    Row::InvokeValid
}

/// Keeps the Invoke until the initiator has confirmed its TID.
fn verify(mut at: Transaction, first: &First) {
    let data = &first.octets[first.data.start..first.data.end()];
    at.record.message_length = data.len() as u32;
    at.start_no_timer();
    at.engine.table.put(at.place, &at.record);
    at.engine.keep(at.place, data);
    at.send_tid_test(false);
}
