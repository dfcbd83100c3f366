//! Settings and names that the tests share.

use wtp::{Name, Role, Settings, Table};

/// The number that either end has for the other.
pub const PEER: u16 = 7;

pub const SETTINGS: Settings =
    Settings { rcr_max: 2, aec_max: 1, a: 2_000, w: 30_000, r_class_1: [4_000; 9], r_class_2: [5_000; 9], waiting_limit: None };

pub fn table(records: u64) -> Table {
    Table::fresh(records, &SETTINGS, 5).expect("these settings are in range")
}

pub fn initiator(tid: u16) -> Name {
    Name { role: Role::Initiator, peer: PEER, tid }
}

pub fn responder(tid: u16) -> Name {
    Name { role: Role::Responder, peer: PEER, tid }
}
