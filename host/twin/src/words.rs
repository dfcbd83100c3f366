//! The words of a PDU and their number; how many words an answer, a part, a deadline and a list of salvaged places have.

pub const FIELDS: usize = 88;
pub const ANSWER: usize = 40;
pub const PART: usize = 3;
pub const DUE: usize = 5;
pub const SALVAGED: usize = 97;
pub const SETTINGS: usize = 32;

pub const TYPE: usize = 0;
pub const GTR: usize = 1;
pub const TTR: usize = 2;
pub const RID: usize = 3;
pub const TID: usize = 4;
pub const VERSION: usize = 5;
pub const TIDNEW: usize = 6;
pub const UP: usize = 7;
pub const CLASS: usize = 8;
pub const TVE: usize = 9;
pub const ABORT_TYPE: usize = 10;
pub const ABORT_REASON: usize = 11;
pub const PACKET: usize = 12;
pub const NACK_COUNT: usize = 13;
pub const NACK_START: usize = 14;
pub const ITEMS: usize = 15;
pub const USER_START: usize = 16;
pub const USER_LENGTH: usize = 17;
/// Identity and place of the first unknown item.
pub const UNKNOWN_IDENTITY: usize = 18;
pub const UNKNOWN_PLACE: usize = 19;
/// The first word of item 0; each item has four: identity, form, start, length.
pub const ITEM: usize = 24;
pub const ITEM_WORDS: usize = 4;
