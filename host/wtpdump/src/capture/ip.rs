//! IP packets and the UDP datagram in them.

use super::octets::{array_at, u16_at, Order};
use super::Udp;
use crate::datagram::Passed;
use std::net::{IpAddr, SocketAddr};

const UDP: u8 = 17;
const UDP_HEADER: usize = 8;
const IPV6_HEADER: usize = 40;
/// Headers of IPv6 with a length in units of eight octets: hop by hop, routing, destination, mobility, host identity, shim.
const EIGHTS: [u8; 6] = [0, 43, 60, 135, 139, 140];
const FRAGMENT: u8 = 44;
const AUTHENTICATION: u8 = 51;

/// The datagram in an IP packet of either version.
pub fn udp(packet: &[u8]) -> Result<Udp<'_>, Passed> {
    match packet.first().map(|octet| octet >> 4) {
        Some(4) => in_ipv4(packet),
        Some(6) => in_ipv6(packet),
        _ => Err(Passed::Damaged("IP")),
    }
}

fn in_ipv4(packet: &[u8]) -> Result<Udp<'_>, Passed> {
    let damaged = || Passed::Damaged("IPv4");
    let header = packet.first().map(|octet| usize::from(octet & 15) * 4).filter(|length| *length >= 20).ok_or_else(damaged)?;
    let fixed: [u8; 20] = array_at(packet, 0).ok_or_else(damaged)?;
    let [_, _, high, low, _, _, flags, offset, _, protocol, ..] = fixed;
    if protocol != UDP {
        return Err(Passed::Other);
    }
    // More fragments, or a place other than the first.
    if flags & 0x3F != 0 || offset != 0 {
        return Err(Passed::Fragment);
    }
    let length = usize::from(u16::from_be_bytes([high, low]));
    let from = address::<4>(packet, 12).ok_or_else(damaged)?;
    let to = address::<4>(packet, 16).ok_or_else(damaged)?;
    in_udp(packet.get(header..length).ok_or_else(damaged)?, from, to)
}

fn in_ipv6(packet: &[u8]) -> Result<Udp<'_>, Passed> {
    let damaged = || Passed::Damaged("IPv6");
    let length = u16_at(packet, 4, Order::High).ok_or_else(damaged)?;
    let from = address::<16>(packet, 8).ok_or_else(damaged)?;
    let to = address::<16>(packet, 24).ok_or_else(damaged)?;
    let mut next = *packet.get(6).ok_or_else(damaged)?;
    let mut rest = packet.get(IPV6_HEADER..).ok_or_else(damaged)?;
    rest = rest.get(..usize::from(length)).ok_or_else(damaged)?;
    while let Some(size) = extension(next, rest)? {
        next = *rest.first().ok_or_else(damaged)?;
        rest = rest.get(size..).ok_or_else(damaged)?;
    }
    if next == UDP {
        in_udp(rest, from, to)
    } else {
        Err(Passed::Other)
    }
}

/// The octets of an extension header; none where what follows is no such header.
fn extension(kind: u8, rest: &[u8]) -> Result<Option<usize>, Passed> {
    let damaged = Passed::Damaged("IPv6 extension");
    let known = EIGHTS.contains(&kind) || kind == FRAGMENT || kind == AUTHENTICATION;
    if !known {
        return Ok(None);
    }
    let [_, units, high, low] = array_at(rest, 0).ok_or(damaged)?;
    match kind {
        // A packet that is its own only fragment is whole.
        FRAGMENT if high != 0 || low & 0xF9 != 0 => Err(Passed::Fragment),
        FRAGMENT => Ok(Some(8)),
        AUTHENTICATION => Ok(Some((usize::from(units) + 2) * 4)),
        _ => Ok(Some((usize::from(units) + 1) * 8)),
    }
}

fn in_udp(datagram: &[u8], from: IpAddr, to: IpAddr) -> Result<Udp<'_>, Passed> {
    let damaged = || Passed::Damaged("UDP");
    let word = |at| u16_at(datagram, at, Order::High).ok_or_else(damaged);
    let (from_port, to_port, length) = (word(0)?, word(2)?, word(4)?);
    let payload = datagram.get(UDP_HEADER..usize::from(length)).ok_or_else(damaged)?;
    Ok(Udp { from: SocketAddr::new(from, from_port), to: SocketAddr::new(to, to_port), payload })
}

fn address<const N: usize>(packet: &[u8], at: usize) -> Option<IpAddr>
where
    IpAddr: From<[u8; N]>,
{
    array_at::<N>(packet, at).map(IpAddr::from)
}
