//! What is read from any source: datagrams, and frames that are passed over.

use std::net::SocketAddr;

/// One datagram. Time and ends are known in a capture only.
#[derive(Debug, Clone, PartialEq, Eq)]
pub struct Datagram {
    /// Of the argument, the line or the frame, counted from 1.
    pub number: usize,
    /// Nanoseconds since the capture's own beginning of time.
    pub time: Option<u64>,
    pub ends: Option<(SocketAddr, SocketAddr)>,
    pub octets: Vec<u8>,
}

/// A frame without a datagram that can be read.
#[derive(Debug, Clone, PartialEq, Eq)]
pub enum Passed {
    /// Not UDP, or not a port that was asked for: nothing to be said.
    Other,
    Fragment,
    LinkType(u32),
    NoInterface,
    /// A header that doesn't fit its packet.
    Damaged(&'static str),
    /// The capture kept only the first octets of the frame.
    CutShort {
        kept: u64,
        length: u64,
    },
}

impl Passed {
    /// What is to be said of such a frame.
    pub fn words(&self) -> Option<String> {
        Some(match self {
            Passed::Other => return None,
            Passed::Fragment => "a fragment of an IP packet".to_string(),
            Passed::LinkType(number) => format!("link type {number}, which isn't read"),
            Passed::NoInterface => "a frame of an interface that the capture doesn't describe".to_string(),
            Passed::Damaged(header) => format!("the {header} header doesn't fit its packet"),
            Passed::CutShort { kept, length } => format!("the capture kept {kept} of the frame's {length} octets"),
        })
    }
}

#[derive(Debug, Clone, PartialEq, Eq)]
pub enum Entry {
    Datagram(Datagram),
    Passed { number: usize, why: Passed },
}
