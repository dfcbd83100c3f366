//! One call as data: what both sides are asked, and how it is told to people.

use std::fmt;

/// Role, peer and TID as a primitive gives them, in range or not.
#[derive(Clone, Copy, Debug, PartialEq, Eq)]
pub struct Name {
    pub role: u64,
    pub peer: u64,
    pub tid: u64,
}

/// The call and its numbers.
#[derive(Clone, Copy, Debug, PartialEq, Eq)]
pub enum Kind {
    TableBytes { records: u64 },
    Fresh { first_tid: u64 },
    Request { now: u64, peer: u64, class: u64, user_ack: u64 },
    Answer { now: u64, of: Name },
    Result { now: u64, of: Name },
    Abort { now: u64, of: Name, reason: u8 },
    Receive { now: u64, peer: u64 },
    Timer { now: u64 },
    Deadline,
    Salvage,
    Fire { now: u64, of: Name },
    Read,
    Write,
    Separate { k: u64 },
    Join,
    ReadPart { k: u64 },
    Data { k: u64 },
}

/// How many octets or words of each buffer are lent; `words` are those of answer, deadline, list, fields or part.
#[derive(Clone, Copy, Debug, Default, PartialEq, Eq)]
pub struct Sizes {
    pub table: usize,
    pub store: usize,
    pub out: usize,
    pub words: usize,
}

/// A call with all that it is lent to read.
pub struct Call {
    pub kind: Kind,
    /// Data, exit information, PDU, datagram or the writer's bytes.
    pub octets: Vec<u8>,
    /// Settings, the writer's fields, the joiner's lengths or an answer.
    pub words: Vec<u64>,
    pub sizes: Sizes,
}

impl Default for Call {
    fn default() -> Call {
        Call { kind: Kind::Join, octets: Vec::new(), words: Vec::new(), sizes: Sizes::default() }
    }
}

impl Kind {
    /// The name of a call that has outcomes and no rows.
    pub fn without_rows(self) -> Option<&'static str> {
        match self {
            Kind::Fresh { .. } => Some("fresh"),
            Kind::Read => Some("read"),
            Kind::Write => Some("write"),
            Kind::Separate { .. } => Some("separate"),
            Kind::Join => Some("join"),
            Kind::ReadPart { .. } => Some("read_part"),
            Kind::Data { .. } => Some("data"),
            _ => None,
        }
    }
}

impl fmt::Display for Name {
    fn fmt(&self, f: &mut fmt::Formatter) -> fmt::Result {
        write!(f, "role {}, peer {}, TID {}", self.role, self.peer, self.tid)
    }
}

impl fmt::Display for Kind {
    fn fmt(&self, f: &mut fmt::Formatter) -> fmt::Result {
        match self {
            Kind::TableBytes { records } => write!(f, "table_bytes: records {records}"),
            Kind::Fresh { first_tid } => write!(f, "fresh: first TID {first_tid}"),
            Kind::Request { now, peer, class, user_ack } => {
                write!(f, "request: now {now}, peer {peer}, class {class}, user acknowledgement {user_ack}")
            }
            Kind::Answer { now, of } => write!(f, "answer: now {now}, {of}"),
            Kind::Result { now, of } => write!(f, "result: now {now}, {of}"),
            Kind::Abort { now, of, reason } => write!(f, "abort: now {now}, {of}, reason {reason}"),
            Kind::Receive { now, peer } => write!(f, "receive: now {now}, peer {peer}"),
            Kind::Timer { now } => write!(f, "timer: now {now}"),
            Kind::Deadline => write!(f, "deadline"),
            Kind::Salvage => write!(f, "salvage"),
            Kind::Fire { now, of } => write!(f, "fire: now {now}, {of}"),
            Kind::Read => write!(f, "read"),
            Kind::Write => write!(f, "write"),
            Kind::Separate { k } => write!(f, "separate: k {k}"),
            Kind::Join => write!(f, "join"),
            Kind::ReadPart { k } => write!(f, "read_part: k {k}"),
            Kind::Data { k } => write!(f, "data: k {k}"),
        }
    }
}

impl fmt::Display for Call {
    fn fmt(&self, f: &mut fmt::Formatter) -> fmt::Result {
        let Sizes { table, store, out, words } = self.sizes;
        writeln!(f, "{}", self.kind)?;
        writeln!(
            f,
            "  lent: table {table}, store {store}, out {out} octets, answer, deadline, list, fields or part {words} words"
        )?;
        write!(f, "  octets ({}):", self.octets.len())?;
        self.octets.iter().try_for_each(|octet| write!(f, " {octet:02X}"))?;
        write!(f, "\n  words ({}):", self.words.len())?;
        self.words.iter().try_for_each(|word| write!(f, " {word}"))
    }
}

#[cfg(test)]
mod tests {
    use super::{Call, Kind, Name, Sizes};

    #[test]
    fn a_call_is_told_with_its_numbers_sizes_octets_and_words() {
        let of = Name { role: 1, peer: 255, tid: 5 };
        let sizes = Sizes { table: 800, store: 1024, out: 1028, words: 32 };
        let call = Call { kind: Kind::Abort { now: 9, of, reason: 7 }, octets: vec![0x0E, 0], words: vec![3], sizes };
        let told = call.to_string();
        assert!(told.starts_with("abort: now 9, role 1, peer 255, TID 5, reason 7\n"));
        assert!(told.contains("table 800, store 1024, out 1028 octets"));
        assert!(told.ends_with("octets (2): 0E 00\n  words (1): 3"));
    }
}
