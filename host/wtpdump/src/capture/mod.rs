//! Captures: frames out of a file, datagrams out of frames.

mod ip;
mod link;
mod octets;
mod pcap;
mod pcapng;
#[cfg(test)]
mod tests;

use crate::datagram::{Datagram, Entry, Passed};
use std::net::SocketAddr;

/// One frame of a capture, without its number.
#[derive(Debug, Clone, PartialEq, Eq)]
pub struct Frame<'a> {
    pub time: Option<u64>,
    /// None where the capture doesn't say.
    pub link: Option<u32>,
    pub octets: &'a [u8],
    /// Of the frame before the capture cut it.
    pub length: u64,
}

/// Where a capture can't be read on: an octet of the file, counted from 0.
#[derive(Debug, Clone, PartialEq, Eq)]
pub struct Broken {
    pub at: usize,
    pub what: &'static str,
}

/// A UDP datagram in its frame.
#[derive(Debug, Clone, PartialEq, Eq)]
pub struct Udp<'a> {
    pub from: SocketAddr,
    pub to: SocketAddr,
    pub payload: &'a [u8],
}

/// Whether the content begins as a capture does.
pub fn is_capture(content: &[u8]) -> bool {
    pcap::begins(content) || pcapng::begins(content)
}

/// All entries up to the end, or up to where the capture is broken.
pub fn entries(content: &[u8], ports: &[u16]) -> (Vec<Entry>, Option<Broken>) {
    let (frames, broken) = if pcap::begins(content) { pcap::frames(content) } else { pcapng::frames(content) };
    let entries = (1..).zip(&frames).map(|(number, frame)| entry(number, frame, ports)).collect();
    (entries, broken)
}

fn entry(number: usize, frame: &Frame, ports: &[u16]) -> Entry {
    match link::udp(frame) {
        Ok(udp) if ports.is_empty() || ports.contains(&udp.from.port()) || ports.contains(&udp.to.port()) => {
            let ends = Some((udp.from, udp.to));
            Entry::Datagram(Datagram { number, time: frame.time, ends, octets: udp.payload.to_vec() })
        }
        Ok(_) => Entry::Passed { number, why: Passed::Other },
        Err(why) => Entry::Passed { number, why },
    }
}
