//! What a request costs.

use crate::taken::flag;

/// What an initiator's transaction of class 1 or 2 has cost by now: the octets of the Invokes and TIDoks that it has sent, first and
/// repeated. After its result it costs no more.
#[derive(Debug, Clone, Copy, PartialEq, Eq)]
pub struct Cost {
    /// At most (1 + RCR_MAX) times the length of its Invoke.
    pub octets: u32,
    /// Whether the transaction ended in this call.
    pub ended: bool,
}

/// The longest Invoke, and eight PDUs after it that are as long.
const MOST: u64 = 9 * 1_028;

/// The cost that two words tell, if they tell one; the outer None where they aren't what the interface describes.
pub(crate) fn cost(octets: u64, ended: u64) -> Option<Option<Cost>> {
    match (octets, flag(ended)?) {
        (0, false) => Some(None),
        (0..=MOST, ended) => Some(Some(Cost { octets: u32::try_from(octets).ok()?, ended })),
        _ => None,
    }
}
