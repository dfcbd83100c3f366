//! Document 01's bounds.

pub const RECORDS: usize = 48;
pub const CELL: usize = 1024;
pub const EXIT: usize = 128;
pub const PDU: usize = 1500;
/// The least output of the engine's calls, and of the PDU writer and the joiner.
pub const SENDING: usize = 1028;
pub const OUTPUT: usize = 1500;
pub const TIME: u64 = 1_000_000_000_000;
pub const INTERVAL: u32 = 86_400_000;
pub const DEADLINE: u64 = TIME + INTERVAL as u64;
pub const COUNTER: u8 = 8;
pub const TID: u16 = 32_767;
pub const ITEMS: usize = 16;
/// Octets of an Invoke that has no data.
pub const BARE_INVOKE: u32 = 4;

/// The most that an initiator's record may have cost: its Invoke and each repeat as long as can be.
pub fn cost(rcr_max: u8) -> u32 {
    (1 + u32::from(rcr_max)) * (BARE_INVOKE + CELL as u32)
}
