//! The reader's call: the words of a PDU.

use crate::bounds;
use crate::pdu::{self, Body, Flags, Part, Pdu};
use crate::words::*;

pub fn read(pdu: &[u8], fields: &mut [u64]) -> u64 {
    let fields = match fields.get_mut(..FIELDS) {
        Some(fields) => fields,
        None => return 1,
    };
    if !(1..=bounds::PDU).contains(&pdu.len()) {
        return 11;
    }
    match pdu::parse(pdu) {
        Ok(pdu) => {
            fields.copy_from_slice(&words_of(&pdu));
            0
        }
        Err(malformed) => malformed as u64,
    }
}

fn words_of(pdu: &Pdu) -> [u64; FIELDS] {
    let mut words = [0; FIELDS];
    words[TID] = pdu.tid.into();
    put_body(&mut words, &pdu.body);
    words[ITEMS] = pdu.items.count() as u64;
    if let Some(unknown) = pdu.items.unknown() {
        words[UNKNOWN_IDENTITY] = unknown.identity.into();
        words[UNKNOWN_PLACE] = unknown.place as u64;
    }
    for (item, four) in pdu.items.iter().zip(words[ITEM..].chunks_exact_mut(ITEM_WORDS)) {
        four.copy_from_slice(&[item.identity.into(), item.long.into(), item.data.start as u64, item.data.length as u64]);
    }
    words
}

fn put_body(words: &mut [u64; FIELDS], body: &Body) {
    match *body {
        Body::Invoke { flags, invoke, data } => {
            put_message(words, 1, flags, data);
            words[VERSION] = invoke.version.into();
            words[TIDNEW] = invoke.tidnew.into();
            words[UP] = invoke.user_ack.into();
            words[CLASS] = invoke.class.into();
        }
        Body::Result { flags, data } => put_message(words, 2, flags, data),
        Body::Ack { tid_test, rid } => {
            words[TYPE] = 3;
            words[TVE] = tid_test.into();
            words[RID] = rid.into();
        }
        Body::Abort { kind, reason } => {
            words[TYPE] = 4;
            words[ABORT_TYPE] = kind.into();
            words[ABORT_REASON] = reason.into();
        }
        Body::SegmentedInvoke { flags, packet, data } => {
            put_message(words, 5, flags, data);
            words[PACKET] = packet.into();
        }
        Body::SegmentedResult { flags, packet, data } => {
            put_message(words, 6, flags, data);
            words[PACKET] = packet.into();
        }
        Body::Nack { rid, list } => {
            words[TYPE] = 7;
            words[RID] = rid.into();
            words[NACK_COUNT] = list.length as u64;
            words[NACK_START] = list.start as u64;
        }
    }
}

/// What the four types with user data share.
fn put_message(words: &mut [u64; FIELDS], kind: u64, flags: Flags, data: Part) {
    words[TYPE] = kind;
    words[GTR] = flags.gtr.into();
    words[TTR] = flags.ttr.into();
    words[RID] = flags.rid.into();
    words[USER_START] = data.start as u64;
    words[USER_LENGTH] = data.length as u64;
}
