//! Places of the words of a frame, and of a part.

pub const KIND: usize = 0;
pub const ADS: usize = 1;
pub const SOURCE: usize = 2;
pub const DESTINATION: usize = 3;
pub const A: usize = 4;
pub const NS: usize = 5;
pub const NR: usize = 6;
pub const R: usize = 7;
pub const NU: usize = 8;
pub const M: usize = 9;
pub const RESPONSE: usize = 10;
pub const START: usize = 11;
pub const LENGTH: usize = 12;
pub const ACTION: usize = 13;
pub const STATUS: usize = 14;
pub const BODY_SOURCE: usize = 15;
pub const BODY_DESTINATION: usize = 16;
pub const APP_START: usize = 17;
pub const APP_LENGTH: usize = 18;
pub const FORMAT: usize = 19;
pub const BITMAP_THERE: usize = 20;
pub const BITMAP: usize = 21;
pub const ENTRIES: usize = 22;
/// Entry k has the five words from `FIRST_ENTRY` + 5k on: its ports, start and length of its Application ID, its format.
pub const FIRST_ENTRY: usize = 24;
pub const ENTRY: usize = 5;

/// Kinds of frame.
pub const I: u64 = 1;
pub const S: u64 = 2;
pub const UI: u64 = 3;
pub const U: u64 = 4;
