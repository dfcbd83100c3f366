//! The PDUs that the cases read, write and receive, in octets.

/// Octets of user data in every PDU that carries some.
pub const DATA: usize = 100;

/// A packet number in the short form, then 32 octets of Info in the long form.
const ITEMS: [u8; 4] = [0x99, 0x07, 0x0C, 0x20];

pub fn data() -> Vec<u8> {
    (0..DATA as u8).collect()
}

pub fn invoke(tid: u8) -> Vec<u8> {
    [&[0x0E, 0x00, tid, 0x02], &data()[..]].concat()
}

pub fn result(tid: u8) -> Vec<u8> {
    [&[0x16, 0x80, tid], &data()[..]].concat()
}

/// An unknown item, of identity 6 and without data.
const UNKNOWN: u8 = 0x30;

/// An Invoke whose record's Acks name an unknown item.
pub fn invoke_with_unknown_item(tid: u8) -> Vec<u8> {
    [&[0x8E, 0x00, tid, 0x02, UNKNOWN], &data()[..]].concat()
}

/// A Result whose Ack names an unknown item.
pub fn result_with_unknown_item(tid: u8) -> Vec<u8> {
    [&[0x96, 0x80, tid, UNKNOWN], &data()[..]].concat()
}

/// An Ack of the responder.
pub fn ack(tid: u8) -> Vec<u8> {
    vec![0x18, 0x80, tid]
}

/// What the initiator answers to a TIDve.
pub fn tidok(tid: u8) -> Vec<u8> {
    vec![0x1C, 0x00, tid]
}

/// An Abort of the initiator's user.
pub fn abort(tid: u8) -> Vec<u8> {
    vec![0x21, 0x00, tid, 0x00]
}

fn items() -> Vec<u8> {
    [&ITEMS[..], &[0xAA; 32]].concat()
}

pub fn invoke_with_items() -> Vec<u8> {
    [vec![0x8E, 0x00, 0x05, 0x02], items(), data()].concat()
}

pub fn result_with_items() -> Vec<u8> {
    [vec![0x96, 0x80, 0x05], items(), data()].concat()
}

pub fn ack_with_items() -> Vec<u8> {
    [vec![0x98, 0x00, 0x05], items()].concat()
}
