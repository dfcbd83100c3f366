//! A safe wrapper over librds.a, the proved frames and ports of the Reliable Data Service (3GPP TS 24.250, as docs/RDS.md reads it).
//!
//! [`read`] and [`write`] are about a [`Frame`], [`take`] and [`put`] about the datagram in a UI frame, and a [`Book`] owns the
//! buffers of one side's ports. Each call gives back what was told, or the number with which the library [`Refused`]. Nothing
//! is decided here: values go to the library as they are, and what it answers is put in words.

#![deny(unsafe_code)]

mod book;
mod codec;
#[allow(unsafe_code)]
pub mod ffi;
mod frame;
mod received;
mod refused;
mod said;
mod told;
pub mod word;

pub use book::{Book, Kept, Outstanding, Whom};
pub use codec::{put, read, take, write, Kind, Put, Taken};
pub use frame::{m, Asked, Command, Content, Entry, Frame, List, Ports, Response, Side, Status, Told};
pub use received::{Event, Managed, Received};
pub use refused::Refused;
