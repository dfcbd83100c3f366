//! PDUs in words: hex or a capture in, one line a PDU out.
//!
//! What is malformed, and how, is the library's word (`wtp::codec`). Here only the place is looked for.

#![deny(unsafe_code)]

mod arguments;
mod capture;
mod datagram;
mod frames;
mod hex;
mod input;
mod lines;
mod program;
mod text;
mod walk;
mod words;

pub use hex::spaced;
pub use lines::{Dump, SentBy, Summary};
pub use program::run;
pub use walk::{fault, unseparated, Fault};
pub use words::Length;
