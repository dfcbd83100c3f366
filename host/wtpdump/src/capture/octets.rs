//! Numbers in octets, in either byte order.

#[derive(Debug, Clone, Copy, PartialEq, Eq)]
pub enum Order {
    /// High octet first.
    High,
    Low,
}

pub fn u16_at(octets: &[u8], at: usize, order: Order) -> Option<u16> {
    let found = array_at(octets, at)?;
    Some(match order {
        Order::High => u16::from_be_bytes(found),
        Order::Low => u16::from_le_bytes(found),
    })
}

pub fn u32_at(octets: &[u8], at: usize, order: Order) -> Option<u32> {
    let found = array_at(octets, at)?;
    Some(match order {
        Order::High => u32::from_be_bytes(found),
        Order::Low => u32::from_le_bytes(found),
    })
}

pub fn array_at<const N: usize>(octets: &[u8], at: usize) -> Option<[u8; N]> {
    octets.get(at..at.checked_add(N)?)?.try_into().ok()
}

/// The part that begins at `at`, where all of it is there.
pub fn part(octets: &[u8], at: usize, length: u32) -> Option<&[u8]> {
    let end = at.checked_add(usize::try_from(length).ok()?)?;
    octets.get(at..end)
}
