//! The engine beside other implementations of WTP: what it sends for tshark to dissect, and a conversation with Kannel.

#![deny(unsafe_code)]

mod browse;
mod conversation;
mod pair;
mod scenarios;
mod tshark;
mod wsp;

pub use browse::{browse, Count, Wanted};
pub use scenarios::{every_pdu, Sent};
pub use tshark::{fields, joined_fields, Field};
