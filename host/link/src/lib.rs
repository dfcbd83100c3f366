//! What reader and gateway share.
//!
//! [`round::Round`] is a reader and [`desk::Desk`] a gateway, both without socket and clock: they are given the time and
//! the datagrams that came, give back a [`step::Step`], and say how long nothing is to be done. [`line::Line`] loses, doubles and
//! delays what is sent, and [`post::Post`] is the UDP socket, which sleeps that long. [`modem::Modem`] stands between an end and its line where
//! datagrams go in frames. [`keeper::Keeper`] keeps in a file what an end goes on from after it was cut off. What was received, and
//! what it means, the proved libraries say.

#![deny(unsafe_code)]

pub mod book;
pub mod common;
pub mod desk;
mod head;
pub mod keeper;
pub mod line;
pub mod modem;
pub mod notes;
mod open;
pub mod outcome;
pub mod payload;
pub mod peers;
pub mod post;
pub mod reason;
pub mod round;
mod standing;
pub mod state;
pub mod step;
pub mod tally;
pub mod wire;
