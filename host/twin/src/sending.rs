//! The headers of the PDUs that the engine sends.

use crate::record::Name;

pub const PROVIDER: u8 = 0;
pub const USER: u8 = 1;

pub const PROTOERR: u8 = 1;
pub const INVALIDTID: u8 = 2;
pub const NOTIMPLEMENTEDSAR: u8 = 4;
pub const WTPVERSIONONE: u8 = 6;
pub const CAPTEMPEXCEEDED: u8 = 7;
pub const NORESPONSE: u8 = 8;

/// The first octet of a last Error item of one octet, and the error code in the high half of that octet; its low half is the identity.
pub const ERROR_ITEM: u8 = 0x01;
pub const UNKNOWN_ITEM: u8 = 1;
/// The first octet of a last Info item, without its length.
pub const INFO_ITEM: u8 = 0x08;
pub const LONG_FORM: u8 = 0x04;

/// An Invoke of a class 0 to 2, a whole message of version 0.
pub fn invoke(repeat: bool, name: Name, class: u8, user_ack: bool, tidnew: bool) -> [u8; 4] {
    let [high, low] = name.send_tid().to_be_bytes();
    [0x0E | u8::from(repeat), high, low, u8::from(tidnew) << 5 | u8::from(user_ack) << 4 | class]
}

pub fn result(repeat: bool, name: Name) -> [u8; 3] {
    let [high, low] = name.send_tid().to_be_bytes();
    [0x16 | u8::from(repeat), high, low]
}

/// A plain Ack; with `tid_test` a responder's TIDve or an initiator's TIDok.
pub fn ack(tid_test: bool, repeat: bool, name: Name) -> [u8; 3] {
    let [high, low] = name.send_tid().to_be_bytes();
    [0x18 | u8::from(tid_test) << 2 | u8::from(repeat), high, low]
}

pub fn abort(kind: u8, reason: u8, name: Name) -> [u8; 4] {
    let [high, low] = name.send_tid().to_be_bytes();
    [0x20 | kind, high, low, reason]
}
