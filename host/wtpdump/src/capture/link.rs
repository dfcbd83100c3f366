//! Link headers: what stands before the IP packet.

use super::ip;
use super::octets::{u16_at, u32_at, Order};
use super::{Frame, Udp};
use crate::datagram::Passed;

const IPV4: u16 = 0x0800;
const IPV6: u16 = 0x86DD;
const VLAN: [u16; 3] = [0x8100, 0x88A8, 0x9100];
/// How systems number IPv6 in the header of a loopback frame; IPv4 is 2 in all of them.
const IPV6_FAMILIES: [u32; 4] = [10, 24, 28, 30];

/// The UDP datagram in a frame.
pub fn udp<'a>(frame: &Frame<'a>) -> Result<Udp<'a>, Passed> {
    let kept = u64::try_from(frame.octets.len()).unwrap_or(u64::MAX);
    inside(frame).map_err(|why| match why {
        // What seems damaged may only be cut.
        Passed::Damaged(_) if kept < frame.length => Passed::CutShort { kept, length: frame.length },
        other => other,
    })
}

fn inside<'a>(frame: &Frame<'a>) -> Result<Udp<'a>, Passed> {
    let octets = frame.octets;
    match frame.link.ok_or(Passed::NoInterface)? {
        0 | 108 => by_family(octets),
        1 => by_type(octets, 12, 14),
        12 | 14 | 101 | 228 | 229 => ip::udp(octets),
        113 => by_type(octets, 14, 16),
        276 => by_type(octets, 0, 20),
        other => Err(Passed::LinkType(other)),
    }
}

/// The packet after a header of `header` octets with its type at `at`, and after the VLAN tags.
fn by_type(octets: &[u8], at: usize, header: usize) -> Result<Udp<'_>, Passed> {
    let damaged = Passed::Damaged("link");
    let mut kind = u16_at(octets, at, Order::High).ok_or_else(|| damaged.clone())?;
    let mut rest = octets.get(header..).ok_or_else(|| damaged.clone())?;
    while VLAN.contains(&kind) {
        kind = u16_at(rest, 2, Order::High).ok_or_else(|| damaged.clone())?;
        rest = rest.get(4..).ok_or_else(|| damaged.clone())?;
    }
    match kind {
        IPV4 | IPV6 => ip::udp(rest),
        _ => Err(Passed::Other),
    }
}

/// The packet after a loopback header: four octets with the family, in the byte order of whoever wrote them.
fn by_family(octets: &[u8]) -> Result<Udp<'_>, Passed> {
    let family = u32_at(octets, 0, Order::High).ok_or(Passed::Damaged("link"))?;
    let family = family.min(family.swap_bytes());
    if family == 2 || IPV6_FAMILIES.contains(&family) {
        ip::udp(octets.get(4..).unwrap_or_default())
    } else {
        Err(Passed::Other)
    }
}
