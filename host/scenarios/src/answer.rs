//! What an accepted call gave, in words; a word that should be 0 and isn't is told too.

use crate::call::Event;
use crate::desk::{Buffers, UNTOUCHED, UNTOUCHED_WORD};
use crate::octets::{part, text};
use std::ops::Range;
use wtp::ffi::{ANSWER, DUE};

const SENT: usize = 0;
const SHOWN: usize = 1;
const TID: usize = 2;
const FIRED: usize = 3;
const FIRST: usize = 4;
const SECOND: usize = 16;
const FIRED_NAME: usize = 28;
const FIRED_END: usize = 31;
const COST: usize = 32;
const COST_ENDED: usize = 33;
const UNKNOWN: usize = 34;
const UNKNOWN_END: usize = 36;
/// The first word of the name in a deadline.
const DUE_NAME: usize = 2;

/// An answer, and the octets that its places point into.
pub struct Answer<'a> {
    pub buffers: &'a Buffers,
    pub octets: &'a [u8],
}

impl Answer<'_> {
    pub fn told(&self, event: Event) -> String {
        let tid = match event {
            Event::Request { .. } => format!("; tid {}", self.word(TID)),
            _ => self.odd(TID..TID + 1),
        };
        let fired = match event {
            Event::Timer | Event::Fire(_) => self.fired(),
            _ => self.odd(FIRED..FIRED + 1) + &self.odd(FIRED_NAME..FIRED_END),
        };
        let unknown = match event {
            Event::Receive { .. } => self.unknown(),
            _ => self.odd(UNKNOWN..UNKNOWN_END),
        };
        let zeros = [self.odd(FIRED_END..COST), self.odd(UNKNOWN_END..ANSWER)].concat();
        [self.sent(), tid, fired, self.shown(), unknown, self.cost(), zeros, self.past(ANSWER)].concat()
    }

    /// The words of a deadline.
    pub fn deadline(&self) -> String {
        let told = match self.word(0) {
            0 => "; none".to_string() + &self.odd(1..DUE),
            1 => format!("; {} {}", self.word(1), self.name(DUE_NAME)),
            _ => self.odd(0..DUE),
        };
        told + &self.past(DUE)
    }

    /// The octets to send; None where there are fewer.
    pub fn pdu(&self) -> Option<&[u8]> {
        self.buffers.out.get(..usize::try_from(self.word(SENT)).ok()?)
    }

    fn word(&self, place: usize) -> u64 {
        self.buffers.answer[place]
    }

    fn odd(&self, places: Range<usize>) -> String {
        let odd = places.filter(|place| self.word(*place) != 0);
        odd.map(|place| format!("; word {place} is {}", self.word(place))).collect()
    }

    /// The PDU at the start of the output; what follows it must be as it was.
    fn sent(&self) -> String {
        let pdu = match self.pdu() {
            Some(pdu) => pdu,
            None => return format!("; sent too many: {}", self.word(SENT)),
        };
        let sent = if pdu.is_empty() { String::new() } else { format!("; sent {}", text(pdu)) };
        let untouched = self.buffers.out[pdu.len()..].iter().all(|octet| *octet == UNTOUCHED);
        sent + if untouched { "" } else { "; OUTPUT CHANGED PAST THE PDU" }
    }

    /// The record that was fired, or that none was due.
    fn fired(&self) -> String {
        match self.word(FIRED) {
            0 => "; none due".to_string() + &self.odd(FIRED_NAME..FIRED_END),
            1 => format!("; fired {}", self.name(FIRED_NAME)),
            _ => self.odd(FIRED..FIRED + 1),
        }
    }

    /// Identity and place of the first unknown item, where there is one.
    fn unknown(&self) -> String {
        match self.word(UNKNOWN) {
            0 => self.odd(UNKNOWN..UNKNOWN_END),
            identity => format!("; unknown {identity} at {}", self.word(UNKNOWN + 1)),
        }
    }

    /// What the initiator's record has cost, where there is one, and whether it ended.
    fn cost(&self) -> String {
        match [self.word(COST), self.word(COST_ENDED)] {
            [0, 0] => String::new(),
            [octets, 0] => format!("; cost {octets}"),
            [octets, 1] => format!("; cost {octets}, ended"),
            _ => self.odd(COST..COST_ENDED + 1),
        }
    }

    /// Role, peer and TID in three words from `at` on.
    fn name(&self, at: usize) -> String {
        let role = match self.word(at) {
            0 => "initiator".to_string(),
            1 => "responder".to_string(),
            other => format!("role {other}"),
        };
        format!("{role} {}/{}", self.word(at + 1), self.word(at + 2))
    }

    fn shown(&self) -> String {
        match self.word(SHOWN) {
            0 => self.odd(FIRST..FIRED_NAME),
            1 => self.indication(FIRST) + &self.odd(SECOND..FIRED_NAME),
            2 => self.indication(FIRST) + &self.indication(SECOND),
            _ => self.odd(SHOWN..SHOWN + 1),
        }
    }

    /// The indication whose twelve words start at `at`.
    fn indication(&self, at: usize) -> String {
        let kind = match self.word(at) {
            1 => "invoke".to_string(),
            2 => "confirm".to_string(),
            3 => "result".to_string(),
            4 => "abort".to_string(),
            other => format!("kind {other}"),
        };
        let named = ["class", "up", "type", "reason"].iter().zip(at + 4..).filter(|(_, place)| self.word(*place) != 0);
        let said: String = named.map(|(name, place)| format!(" {name} {}", self.word(place))).collect();
        format!("; {kind} {}{said}{}{}", self.name(at + 1), self.data(at + 8), self.odd(at + 11..at + 12))
    }

    /// The data whose source, start and length are three words from `at` on.
    fn data(&self, at: usize) -> String {
        let (source, octets): (_, &[u8]) = match [self.word(at), self.word(at + 1), self.word(at + 2)] {
            [0, 0, 0] => return " no data".to_string(),
            [0, ..] => ("datagram".to_string(), self.octets),
            [1, ..] => ("store".to_string(), &self.buffers.store),
            [other, ..] => (format!("source {other}"), &[]),
        };
        let place = format!(" {source} {}+{}", self.word(at + 1), self.word(at + 2));
        match part(octets, self.word(at + 1), self.word(at + 2)) {
            None => place + " WHICH ISN'T THERE",
            Some([]) => place,
            Some(data) => format!("{place} {}", text(data)),
        }
    }

    /// Words from this one on, which the call may not touch.
    fn past(&self, first: usize) -> String {
        let touched = (first..self.buffers.answer.len()).filter(|place| self.word(*place) != UNTOUCHED_WORD);
        touched.map(|place| format!("; changed word {place}")).collect()
    }
}
