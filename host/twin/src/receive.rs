//! A PDU that came from a peer.

use crate::engine::Engine;
use crate::event::Event;
use crate::listen;
use crate::pdu::{self, Body, Pdu};
use crate::record::{Name, Role};
use crate::sending::{self, INVALIDTID, PROTOERR, PROVIDER};
use crate::transaction::Transaction;
use crate::{bounds, Lent, Row, Said};

const INVOKE: u8 = 1;
const RESULT: u8 = 2;

pub fn receive(lent: Lent, now: u64, peer: u64, pdu: &[u8]) -> Said {
    carry_out(lent, now, peer, pdu).unwrap_or_else(|refused| refused)
}

fn carry_out(lent: Lent, now: u64, peer: u64, pdu: &[u8]) -> Result<Said, Said> {
    let mut engine = Engine::open(lent, now, Row::Receive1, Row::Receive2)?;
    let peer = u8::try_from(peer).map_err(|_| Said { number: 3, row: Row::Receive3 })?;
    if !(1..=bounds::PDU).contains(&pdu.len()) {
        return Err(Said { number: 11, row: Row::Receive11 });
    }
    let read = pdu::parse(pdu).ok();
    if let Some(unknown) = read.as_ref().and_then(|read| read.items.unknown()) {
        engine.answer.unknown(unknown);
    }
    let row = dispatch(&mut engine, peer, pdu, read.as_ref());
    Ok(engine.accept(row))
}

/// `read` is the PDU in these octets, `None` where it is malformed.
fn dispatch(engine: &mut Engine, peer: u8, octets: &[u8], read: Option<&Pdu>) -> Row {
    let (first, tid) = match octets {
        [first, high, low, ..] => (*first, u16::from_be_bytes([*high, *low])),
        _ => return Row::ShortPdu,
    };
    let to_initiator = tid & 0x8000 != 0;
    match pdu::type_of(first) {
        INVOKE if to_initiator => return Row::InvokeTheWrongWay,
        RESULT if !to_initiator => return Row::ResultTheWrongWay,
        _ => {}
    }
    let role = if to_initiator { Role::Initiator } else { Role::Responder };
    let name = Name { role, peer, tid: tid & bounds::TID };
    match engine.table.find(name) {
        Some((place, record)) => {
            let event = read.map_or(Event::Malformed, Event::of);
            // A received PDU is never refused, so that both cases are the row.
            Transaction { engine, place, record }.meet(event).unwrap_or_else(|row| row)
        }
        None => match read {
            Some(pdu) => without_record(engine, name, octets, pdu),
            None => malformed_without_record(engine, name, pdu::type_of(first) == INVOKE),
        },
    }
}

fn malformed_without_record(engine: &mut Engine, name: Name, is_invoke: bool) -> Row {
    if !is_invoke {
        return Row::NoRecordMalformedOther;
    }
    engine.send(&sending::abort(PROVIDER, PROTOERR, name));
    Row::NoRecordMalformedInvoke
}

fn without_record(engine: &mut Engine, name: Name, octets: &[u8], pdu: &Pdu) -> Row {
    match pdu.body {
        Body::Invoke { flags, invoke, data } => {
            let unknown = pdu.items.unknown_identity();
            listen::invoke(engine, name, &listen::First { flags, invoke, data, unknown, octets })
        }
        Body::Ack { tid_test: true, .. } if name.role == Role::Initiator => {
            engine.send(&sending::abort(PROVIDER, INVALIDTID, name));
            Row::NoRecordTidve
        }
        Body::Ack { .. } => Row::NoRecordAck,
        Body::Abort { .. } => Row::NoRecordAbort,
        Body::Result { .. } => Row::NoRecordResult,
        Body::SegmentedInvoke { .. } | Body::SegmentedResult { .. } | Body::Nack { .. } => Row::NoRecordSegmented,
    }
}
