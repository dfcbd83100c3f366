//! One call as data: what both sides are asked, and how it is told to people.

use std::fmt;

/// The call and its numbers.
#[derive(Clone, Copy, Debug, PartialEq, Eq)]
pub enum Kind {
    Read { from_network: u64 },
    Take { from_network: u64 },
    Write { from_network: u64 },
    Put { ports: u64, source: u64, destination: u64, number: u64 },
    Bytes,
    Fresh { network: u64, formats: u64 },
    Reserve { own: u64, peers: u64, with_format: u64 },
    Release { own: u64 },
    Again,
    Abandon,
    Receive,
    Port { port: u64 },
}

/// How many octets or words of each buffer are lent; `words` are those of fields, part or answer.
#[derive(Clone, Copy, Debug, PartialEq, Eq)]
pub struct Sizes {
    pub book: usize,
    pub out: usize,
    pub words: usize,
}

/// A call with all that it is lent to read.
#[derive(Clone, Debug)]
pub struct Call {
    pub kind: Kind,
    /// Frame, datagram, the writer's bytes or an Application ID.
    pub octets: Vec<u8>,
    /// The writer's fields.
    pub fields: Vec<u64>,
    pub sizes: Sizes,
}

impl Kind {
    pub fn name(self) -> &'static str {
        match self {
            Kind::Read { .. } => "read",
            Kind::Take { .. } => "take",
            Kind::Write { .. } => "write",
            Kind::Put { .. } => "put",
            Kind::Bytes => "ports_bytes",
            Kind::Fresh { .. } => "ports_fresh",
            Kind::Reserve { .. } => "reserve",
            Kind::Release { .. } => "release",
            Kind::Again => "again",
            Kind::Abandon => "abandon",
            Kind::Receive => "receive",
            Kind::Port { .. } => "port",
        }
    }
}

impl fmt::Display for Call {
    fn fmt(&self, f: &mut fmt::Formatter) -> fmt::Result {
        let Sizes { book, out, words } = self.sizes;
        writeln!(f, "{:?}", self.kind)?;
        writeln!(f, "  lent: book {book}, out {out} octets, fields, part or answer {words} words")?;
        write!(f, "  octets ({}):", self.octets.len())?;
        self.octets.iter().try_for_each(|octet| write!(f, " {octet:02X}"))?;
        write!(f, "\n  fields ({}), those that aren't 0:", self.fields.len())?;
        let said = self.fields.iter().enumerate().filter(|(_, word)| **word != 0);
        said.into_iter().try_for_each(|(place, word)| write!(f, " {place}={word}"))
    }
}
