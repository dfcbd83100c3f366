//! An information item that isn't known.

/// The first item of a PDU whose identity isn't in section 8.4, and the place of the item's first octet in the PDU.
#[derive(Debug, Clone, Copy, PartialEq, Eq)]
pub struct Unknown {
    /// 6 to 15.
    pub identity: u8,
    pub place: u16,
}

/// The item that two words tell, if they tell one; the outer None where they aren't what the interface describes.
pub(crate) fn unknown(identity: u64, place: u64) -> Option<Option<Unknown>> {
    match (identity, place) {
        (0, 0) => Some(None),
        (6..=15, _) => Some(Some(Unknown { identity: u8::try_from(identity).ok()?, place: u16::try_from(place).ok()? })),
        _ => None,
    }
}
