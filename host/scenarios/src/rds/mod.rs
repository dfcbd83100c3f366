//! Cases of the Reliable Data Service, a command a line, through librds.a: frames, and calls over one port book.
//!
//! It works nothing out: what the library answered is put in words. What that must be tests/rds_cases.py has from docs/RDS.md.

mod answer;
mod command;
mod player;

pub use player::play;
