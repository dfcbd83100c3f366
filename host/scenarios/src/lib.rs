//! Plays scenarios and codec cases, a command a line, through the library, for two ends with a table each, and tells what each
//! command gives.
//!
//! It works nothing out: what the library answered and did to the octets that it was lent is put in words. What they must be is
//! worked out by tests/scenarios.py and tests/codec_cases.py, independent readings of document 01.

#![forbid(unsafe_code)]

mod answer;
mod call;
mod changes;
mod codec;
mod command;
mod desk;
mod look;
mod octets;
#[cfg(test)]
mod planted;
mod player;
pub mod rds;
mod refused;
mod salvaged;
mod words;

pub use player::play;
