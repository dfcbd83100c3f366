//! One end of a link for the tests: its buffers, and the calls with what holds after every one of them.

mod bench_cases;
mod cost;
mod datagrams;
mod reader_and_writer;
mod refusals;
mod rows;
mod salvage;
mod tables;
mod tidnew;
mod timer;
mod transactions;
mod unknown;
mod waiting;

use crate::{Lent, Said};

pub const INITIATOR: u64 = 0;
pub const RESPONDER: u64 = 1;

pub const INVOKE: u64 = 1;
pub const CONFIRMATION: u64 = 2;
pub const RESULT: u64 = 3;
pub const ABORT: u64 = 4;

pub const A: u64 = 100;
pub const W: u64 = 200;

/// R[RCR] of a class in `settings`.
pub fn interval_r(class: u64, rcr: u64) -> u64 {
    1000 * class + rcr
}

pub fn settings(rcr_max: u64, aec_max: u64) -> [u64; 32] {
    let mut words = [0; 32];
    words[..4].copy_from_slice(&[rcr_max, aec_max, A, W]);
    for rcr in 0..9 {
        words[4 + rcr] = interval_r(1, rcr as u64);
        words[13 + rcr] = interval_r(2, rcr as u64);
    }
    words
}

/// Settings of the examples of document 02's reading: A 100, W 200, R of class 1 50, 60, .., of class 2 150, 160, ..
pub fn settings_of_the_reading() -> [u64; 32] {
    let mut settings = settings(2, 1);
    for rcr in 0..9 {
        settings[4 + rcr] = 50 + 10 * rcr as u64;
        settings[13 + rcr] = 150 + 10 * rcr as u64;
    }
    settings
}

/// The same settings with a waiting limit.
pub fn limited(mut settings: [u64; 32], limit: u64) -> [u64; 32] {
    settings[22..24].copy_from_slice(&[1, limit]);
    settings
}

#[derive(Clone, Debug, PartialEq, Eq)]
pub struct End {
    pub table: Vec<u8>,
    pub store: Vec<u8>,
    pub out: Vec<u8>,
    pub answer: Vec<u64>,
}

/// The words of an indication.
#[derive(Clone, Copy, Debug, PartialEq, Eq)]
pub struct Shown {
    pub kind: u64,
    pub name: [u64; 3],
    pub class: u64,
    pub user_ack: u64,
    pub abort_type: u64,
    pub reason: u64,
    pub source: u64,
    pub start: usize,
    pub length: usize,
}

impl End {
    /// RCR_MAX 2, AEC_MAX 1.
    pub fn new(records: u64, first_tid: u64) -> End {
        End::with(records, first_tid, &settings(2, 1))
    }

    pub fn with(records: u64, first_tid: u64, settings: &[u64]) -> End {
        let mut table = vec![0xA5; crate::table_bytes(records) as usize];
        assert_eq!(crate::fresh(&mut table, settings, first_tid), 0);
        End { table, store: vec![0x5A; 1024 * records as usize], out: vec![0xEE; 1030], answer: vec![7; 42] }
    }

    pub fn of_the_reading(records: u64, first_tid: u64) -> End {
        End::with(records, first_tid, &settings_of_the_reading())
    }

    fn call(&mut self, act: impl FnOnce(Lent) -> Said) -> Said {
        let before = self.clone();
        let End { table, store, out, answer } = self;
        let said = act(Lent { table, store, out, answer });
        if said.number == 0 {
            assert_eq!(self.out[self.answer[0] as usize..], before.out[self.answer[0] as usize..]);
            assert_eq!(self.answer[40..], before.answer[40..]);
            assert_eq!((self.answer[31], &self.answer[36..40]), (0, &[0; 4][..]));
        } else {
            assert_eq!(*self, before, "{said:?} changed something");
        }
        said
    }

    pub fn request(&mut self, now: u64, peer: u64, class: u64, user_ack: u64, data: &[u8]) -> Said {
        self.call(|lent| crate::request(lent, now, peer, class, user_ack, data))
    }

    pub fn answer(&mut self, now: u64, name: [u64; 3], exit: &[u8]) -> Said {
        self.call(|lent| crate::answer(lent, now, name[0], name[1], name[2], exit))
    }

    pub fn result(&mut self, now: u64, name: [u64; 3], data: &[u8]) -> Said {
        self.call(|lent| crate::result(lent, now, name[0], name[1], name[2], data))
    }

    pub fn abort(&mut self, now: u64, name: [u64; 3], reason: u8) -> Said {
        self.call(|lent| crate::abort(lent, now, name[0], name[1], name[2], reason))
    }

    pub fn receive(&mut self, now: u64, peer: u64, pdu: &[u8]) -> Said {
        self.call(|lent| crate::receive(lent, now, peer, pdu))
    }

    pub fn timer(&mut self, now: u64) -> Said {
        self.call(|lent| crate::timer(lent, now))
    }

    pub fn fire(&mut self, now: u64, name: [u64; 3]) -> Said {
        self.call(|lent| crate::fire(lent, now, name[0], name[1], name[2]))
    }

    /// The words of the earliest deadline, or the number; only the words are written.
    pub fn deadline(&self) -> Result<[u64; 5], u64> {
        let mut due = [7; 6];
        let said = crate::deadline(&self.table, &mut due);
        let [any, at, role, peer, tid, past] = due;
        assert!(past == 7 && (said.number == 0 || due == [7; 6]), "{said:?} wrote too much");
        if said.number == 0 {
            Ok([any, at, role, peer, tid])
        } else {
            Err(said.number)
        }
    }

    /// The places that were changed, each with its reason, or the number; the outcome is well formed and salvaged once for all.
    pub fn salvage(&mut self) -> Result<Vec<[u64; 2]>, u64> {
        let before = self.clone();
        let mut list = [7; 98];
        let said = crate::salvage(&mut self.table, &mut list);
        assert_eq!(list[97], 7, "{said:?} wrote too much");
        if said.number != 0 {
            assert!(*self == before && list == [7; 98], "{said:?} changed something");
            return Err(said.number);
        }
        assert_eq!(self.table[..624], before.table[..624]);
        assert!(self.deadline().is_ok());
        let (once, mut again) = (self.table.clone(), [7; 97]);
        assert_eq!(crate::salvage(&mut self.table, &mut again).row, crate::Row::SalvageNothing);
        assert!(self.table == once && again == [0; 97]);
        let places = list[0] as usize;
        assert!(list[1 + 2 * places..97].iter().all(|word| *word == 0));
        Ok(list[1..1 + 2 * places].chunks_exact(2).map(|entry| [entry[0], entry[1]]).collect())
    }

    /// The PDU that the last accepted call sent.
    pub fn sent(&self) -> Vec<u8> {
        self.out[..self.answer[0] as usize].to_vec()
    }

    /// Identity and place of the first unknown item that the last accepted call told.
    pub fn unknown(&self) -> [u64; 2] {
        [self.answer[34], self.answer[35]]
    }

    /// The cost that the last accepted call told, and whether its transaction ended.
    pub fn cost(&self) -> [u64; 2] {
        [self.answer[32], self.answer[33]]
    }

    /// The indications of the last accepted call.
    pub fn shown(&self) -> Vec<Shown> {
        let indications = self.answer[4..28].chunks_exact(12).take(self.answer[1] as usize);
        let read = |words: &[u64]| Shown {
            kind: words[0],
            name: [words[1], words[2], words[3]],
            class: words[4],
            user_ack: words[5],
            abort_type: words[6],
            reason: words[7],
            source: words[8],
            start: words[9] as usize,
            length: words[10] as usize,
        };
        indications.map(read).collect()
    }

    /// The same end once its first Invoke of class 1 or 2 has gone out: TIDnew isn't due any more.
    pub fn after_its_first(mut self) -> End {
        self.table[97] = 0;
        self
    }

    /// Caches `tid` as LastTID of a peer.
    pub fn cache(&mut self, peer: usize, tid: u16) {
        self.table[112 + 2 * peer..][..2].copy_from_slice(&(tid + 1).to_le_bytes());
    }

    /// The octets of the record at a place.
    pub fn record(&mut self, place: usize) -> &mut [u8] {
        &mut self.table[624 + 176 * place..][..176]
    }
}

pub fn abort_shown(name: [u64; 3], abort_type: u64, reason: u64) -> Shown {
    Shown { kind: ABORT, name, class: 0, user_ack: 0, abort_type, reason, source: 0, start: 0, length: 0 }
}

pub fn data_shown(kind: u64, name: [u64; 3], start: usize, length: usize) -> Shown {
    Shown { kind, name, class: 0, user_ack: 0, abort_type: 0, reason: 0, source: 0, start, length }
}
