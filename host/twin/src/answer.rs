//! What an accepted call tells: the words of an answer.

use crate::items::Unknown;
use crate::pdu::Part;
use crate::record::Name;
use crate::words::ANSWER;

const FIRST: usize = 4;
const INDICATION: usize = 12;
const FIRED: usize = 28;
const COST: usize = 32;
const COST_ENDED: usize = 33;
const UNKNOWN: usize = 34;

/// Where the data of an indication lies.
#[derive(Clone, Copy, Debug, PartialEq, Eq)]
pub enum Data {
    Datagram(Part),
    Store(Part),
}

impl Data {
    /// Of an indication that nothing carries data for.
    pub fn none() -> Data {
        Data::Datagram(Part::default())
    }

    fn words(self) -> [u64; 3] {
        match self {
            Data::Datagram(part) => [0, part.start as u64, part.length as u64],
            Data::Store(part) => [1, part.start as u64, part.length as u64],
        }
    }
}

#[derive(Clone, Copy, Debug, PartialEq, Eq)]
pub enum Indication {
    Invoke { class: u8, user_ack: bool, data: Data },
    Confirmation { data: Data },
    Result { data: Data },
    Abort { kind: u8, reason: u8 },
}

impl Indication {
    fn words(self, name: Name) -> [u64; INDICATION] {
        let (kind, class, user_ack, abort, reason, data) = match self {
            Indication::Invoke { class, user_ack, data } => (1, class, user_ack, 0, 0, data),
            Indication::Confirmation { data } => (2, 0, false, 0, 0, data),
            Indication::Result { data } => (3, 0, false, 0, 0, data),
            Indication::Abort { kind, reason } => (4, 0, false, kind, reason, Data::none()),
        };
        let [role, peer, tid] = words_of(name);
        let [source, start, length] = data.words();
        [kind, role, peer, tid, class.into(), user_ack.into(), abort.into(), reason.into(), source, start, length, 0]
    }
}

/// Role, peer and TID as words.
pub fn words_of(name: Name) -> [u64; 3] {
    [name.role as u64, name.peer.into(), name.tid.into()]
}

/// The words as the call fills them.
pub struct Answer {
    words: [u64; ANSWER],
}

impl Answer {
    pub fn new() -> Answer {
        Answer { words: [0; ANSWER] }
    }

    pub fn sent(&mut self, length: usize) {
        self.words[0] = length as u64;
    }

    /// A call gives two indications at most.
    pub fn show(&mut self, name: Name, indication: Indication) {
        let from = FIRST + INDICATION * self.words[1] as usize;
        self.words[from..from + INDICATION].copy_from_slice(&indication.words(name));
        self.words[1] += 1;
    }

    pub fn requested(&mut self, tid: u16) {
        self.words[2] = tid.into();
    }

    pub fn fired(&mut self, name: Name) {
        self.words[3] = 1;
        self.words[FIRED..FIRED + 3].copy_from_slice(&words_of(name));
    }

    /// The octets of the PDU that was sent.
    pub fn length(&self) -> u32 {
        self.words[0] as u32
    }

    /// What the initiator's record that the call concerns has cost.
    pub fn cost(&mut self, octets: u32) {
        self.words[COST] = octets.into();
    }

    /// That record ends in this call.
    pub fn cost_ended(&mut self) {
        self.words[COST_ENDED] = 1;
    }

    pub fn unknown(&mut self, first: Unknown) {
        self.words[UNKNOWN..UNKNOWN + 2].copy_from_slice(&[first.identity.into(), first.place as u64]);
    }

    pub fn words(&self) -> &[u64; ANSWER] {
        &self.words
    }
}
