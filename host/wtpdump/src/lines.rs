//! Lines for what was read, and the count of it.

use crate::datagram::{Datagram, Entry};
use crate::frames;
use crate::hex::spaced;
use crate::walk::unseparated;
use crate::words::{self, Length};
use rds::Side;
use std::fmt;
use wtp::ffi;

/// What was seen so far.
#[derive(Debug, Clone, Copy, Default, PartialEq, Eq)]
pub struct Summary {
    pub datagrams: u64,
    pub pdus: u64,
    pub malformed: u64,
    pub unseparated: u64,
    pub passed: u64,
    pub frames: u64,
    pub malformed_frames: u64,
}

/// Who sent a frame: one side all of them, or the network those from a UDP port and the UE the others.
#[derive(Debug, Clone, Copy, PartialEq, Eq)]
pub enum SentBy {
    Side(Side),
    NetworkAt(u16),
}

/// Turns entries into lines, in order.
#[derive(Debug, Clone)]
pub struct Dump {
    length: Length,
    /// None: datagrams come as they are.
    frames: Option<SentBy>,
    first_time: Option<u64>,
    summary: Summary,
}

impl Dump {
    pub fn new(length: Length) -> Dump {
        Dump { length, frames: None, first_time: None, summary: Summary::default() }
    }

    /// Of datagrams in frames of the Reliable Data Service.
    pub fn of_frames(length: Length, by: SentBy) -> Dump {
        Dump { frames: Some(by), ..Dump::new(length) }
    }

    pub fn summary(&self) -> Summary {
        self.summary
    }

    pub(crate) fn lines(&mut self, entry: &Entry) -> Vec<String> {
        match entry {
            Entry::Datagram(datagram) => {
                let head = self.head(datagram);
                let lines = match self.frames {
                    Some(by) => self.frame(&datagram.octets, by.sender(datagram)),
                    None => self.datagram(&datagram.octets),
                };
                lines.into_iter().map(|line| format!("{head}: {line}")).collect()
            }
            Entry::Passed { number, why } => {
                self.summary.passed = self.summary.passed.saturating_add(1);
                why.words().map(|why| format!("#{number}: passed over: {why}")).into_iter().collect()
            }
        }
    }

    /// The lines of one datagram, without its number.
    pub fn datagram(&mut self, datagram: &[u8]) -> Vec<String> {
        self.summary.datagrams = self.summary.datagrams.saturating_add(1);
        match places(datagram) {
            Ok(places) => {
                let count = places.len();
                let joined = datagram.first() == Some(&0);
                let numbered = (1..).zip(places);
                let line = |(k, place)| self.pdu(datagram, place, joined.then(|| format!("PDU {k} of {count}, ")));
                numbered.map(line).collect()
            }
            Err(number) => {
                self.summary.unseparated = self.summary.unseparated.saturating_add(1);
                vec![cannot_separate(number, datagram)]
            }
        }
    }

    /// The lines of one frame, and of the PDUs in it.
    fn frame(&mut self, octets: &[u8], from: Side) -> Vec<String> {
        self.summary.frames = self.summary.frames.saturating_add(1);
        let head = format!("frame of {} octets from {}", octets.len(), frames::side(from));
        match frames::frame(octets, from, self.length) {
            Ok((words, datagram)) => {
                let inside = datagram.map_or_else(Vec::new, |datagram| self.datagram(datagram));
                let inside = inside.into_iter().map(|line| format!("in it: {line}"));
                std::iter::once(format!("{head}: {words}")).chain(inside).collect()
            }
            Err(malformed) => {
                self.summary.malformed_frames = self.summary.malformed_frames.saturating_add(1);
                vec![format!("{head}: {malformed}")]
            }
        }
    }

    fn pdu(&mut self, datagram: &[u8], (start, length): (usize, usize), which: Option<String>) -> String {
        let octets = datagram.get(start..start.saturating_add(length)).unwrap_or_default();
        let last = start.saturating_add(length).saturating_sub(1);
        let place = if start == last { format!("octet {start}") } else { format!("octets {start} to {last}") };
        let words = words::pdu(octets, start, self.length);
        self.summary.pdus = self.summary.pdus.saturating_add(1);
        self.summary.malformed = self.summary.malformed.saturating_add(u64::from(words.is_err()));
        let words = words.unwrap_or_else(|malformed| malformed);
        format!("{}{place}: {words}", which.unwrap_or_default())
    }

    fn head(&mut self, datagram: &Datagram) -> String {
        let mut head = format!("#{}", datagram.number);
        if let Some(time) = datagram.time {
            let first = *self.first_time.get_or_insert(time);
            head.push_str(&format!(" {}", seconds(time, first)));
        }
        if let Some((from, to)) = datagram.ends {
            head.push_str(&format!(" {from} > {to}"));
        }
        head
    }
}

impl SentBy {
    fn sender(self, datagram: &Datagram) -> Side {
        match self {
            SentBy::Side(side) => side,
            SentBy::NetworkAt(port) if datagram.ends.map_or(false, |(from, _)| from.port() == port) => Side::Network,
            SentBy::NetworkAt(_) => Side::Ue,
        }
    }
}

/// Start and length of each PDU, or the number with which the library refuses the datagram.
fn places(datagram: &[u8]) -> Result<Vec<(usize, usize)>, u64> {
    let place = |k| {
        let mut words = [0; ffi::PART];
        match ffi::separate(datagram, k, &mut words) {
            0 => Ok(words),
            number => Err(number),
        }
    };
    let size = |word| usize::try_from(word).unwrap_or(usize::MAX);
    let [_, _, count] = place(0)?;
    (0..count).map(|k| place(k).map(|[start, length, _]| (size(start), size(length)))).collect()
}

fn cannot_separate(number: u64, datagram: &[u8]) -> String {
    let place = unseparated(datagram).map(|at| format!(" at octet {at}")).unwrap_or_default();
    let why = match datagram.len() {
        0 => "the datagram is empty",
        1..=1500 => "the datagram can't be separated",
        _ => "the datagram has more than 1,500 octets",
    };
    let shown = spaced(datagram.get(..32).unwrap_or(datagram));
    let dots = if datagram.len() > 32 { " ..." } else { "" };
    format!("number {number}{place}: {why}: {shown}{dots}").trim_end_matches(": ").to_string()
}

/// Seconds since the first datagram; a capture may be out of order.
fn seconds(time: u64, first: u64) -> String {
    let (sign, nanoseconds) = if time < first { ("-", first.abs_diff(time)) } else { ("", time.abs_diff(first)) };
    format!("{sign}{}.{:06}", nanoseconds / 1_000_000_000, nanoseconds % 1_000_000_000 / 1_000)
}

impl fmt::Display for Summary {
    fn fmt(&self, f: &mut fmt::Formatter<'_>) -> fmt::Result {
        let Summary { datagrams, pdus, malformed, unseparated, passed, frames, malformed_frames } = self;
        if *frames > 0 {
            write!(f, "frames: {frames}, malformed: {malformed_frames}; ")?;
        }
        write!(f, "datagrams: {datagrams}, PDUs: {pdus}, malformed: {malformed}")?;
        if *unseparated > 0 {
            write!(f, ", can't be separated: {unseparated}")?;
        }
        if *passed > 0 {
            write!(f, ", frames passed over: {passed}")?;
        }
        Ok(())
    }
}
