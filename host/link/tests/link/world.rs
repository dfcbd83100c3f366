//! A reader and a gateway on a fake clock, with a line each way. Either sleeps until its own next time or until a packet comes.

use link::book::{Book, Entry};
use link::desk::Desk;
use link::line::{Faults, Line};
use link::outcome::Outcome;
use link::payload::{Concentration, Sampler};
use link::round::{Manner, Round};
use link::step::{earliest, End, Packet, Step};
use wtp::{Settings, Table};

pub const INTERVAL: u64 = 300;
pub const RCR_MAX: u64 = 8;
pub const W: u64 = INTERVAL * (RCR_MAX + 1);
pub const PATIENCE: u64 = 3 * W;
pub const MANNER: Manner = Manner { user_ack: true, patience: PATIENCE, linger: W };
pub const NO_FAULTS: Faults = Faults { loss: 0, duplicate: 0, delay: 0 };

/// What happens within this time happens at its end.
const TICK: u64 = 60;
/// A peer number that isn't the reader's number for the gateway.
const READER: u16 = 9;

pub struct World {
    pub round: Round,
    pub desk: Desk,
    pub now: u64,
    /// Octets of all Invokes and TIDoks that the reader has sent.
    pub sent: u32,
    to_desk: Line,
    to_round: Line,
}

/// Its eighth request is the one that brings GenTID back to 0.
const FIRST_TID: u16 = 32_760;

/// Its waiting limit is `PATIENCE`.
pub fn table(records: u64) -> Table {
    table_from(FIRST_TID, records, PATIENCE)
}

/// A gateway has more patience than its readers.
pub fn gateway_table(records: u64) -> Table {
    table_from(FIRST_TID, records, 2 * PATIENCE)
}

fn table_from(first_tid: u16, records: u64, limit: u64) -> Table {
    let settings = Settings {
        rcr_max: RCR_MAX,
        aec_max: 2,
        a: INTERVAL,
        w: W,
        r_class_1: [INTERVAL; 9],
        r_class_2: [INTERVAL; 9],
        waiting_limit: Some(limit),
    };
    Table::fresh(records, &settings, first_tid).unwrap()
}

pub fn sampler(number: usize) -> Sampler {
    Sampler::of(&format!("{number:05}")).unwrap()
}

/// A value that no other sampler has.
pub fn value(number: usize) -> Entry {
    Entry::Value(Concentration::of(format!("NO2 {number}.5 ug/m3").as_bytes()).unwrap())
}

impl World {
    pub fn new(entries: &[Entry], records: u64, manner: Manner, to_desk: Faults, to_round: Faults) -> World {
        let mut book = Book::default();
        for (number, entry) in entries.iter().enumerate() {
            assert!(book.enter(sampler(number), entry.clone()));
        }
        let mut world = World {
            round: Round::new(table(records), (0..entries.len()).map(sampler).collect(), manner),
            desk: Desk::new(gateway_table(records), book),
            now: 0,
            sent: 0,
            to_desk: Line::new(to_desk, 1),
            to_round: Line::new(to_round, 2),
        };
        world.tick_round();
        world
    }

    /// The reader is switched off and on again, and asks for all samplers anew, one after the other.
    pub fn restart(&mut self, first_tid: u16) {
        let samplers = (0..self.round.outcomes().len()).map(sampler).collect();
        self.round = Round::new(table_from(first_tid, 1, PATIENCE), samplers, MANNER);
        self.tick_round();
    }

    /// Sleeps until an end wakes up by itself or a packet comes; only an end that woke up is looked at.
    pub fn wake(&mut self) {
        let (round, desk) = (self.round.next(), self.desk.next());
        let next = earliest(&[round, desk, self.to_desk.next(), self.to_round.next()]);
        self.now = next.expect("both ends sleep for ever").max(self.now + TICK);
        let is_due = |next: Option<u64>| next.map_or(false, |next| next <= self.now);
        let (mut round, mut desk) = (is_due(round), is_due(desk));
        for packet in self.to_desk.leaving(self.now) {
            let step = self.desk.hear(self.now, &Packet { peer: READER, ..packet });
            self.desk_sends(step);
            desk = true;
        }
        for packet in self.to_round.leaving(self.now) {
            let step = self.round.hear(self.now, &packet);
            self.round_sends(step);
            round = true;
        }
        if desk {
            let step = self.desk.tick(self.now);
            self.desk_sends(step);
        }
        if round {
            self.tick_round();
        }
    }

    fn tick_round(&mut self) {
        let step = self.round.tick(self.now);
        self.round_sends(step);
    }

    /// Until the round is over, which patience promises, and its last packet has come.
    pub fn run(&mut self) -> Vec<Outcome> {
        let samplers = u64::try_from(self.round.outcomes().len()).unwrap();
        let end = self.now + (samplers + 2) * (PATIENCE + W);
        while !self.round.is_over(self.now) || !self.to_desk.is_empty() {
            self.wake();
            assert!(self.now < end, "the round doesn't end");
        }
        self.round.outcomes().iter().map(|outcome| outcome.clone().expect("each has its outcome")).collect()
    }

    fn round_sends(&mut self, step: Step) {
        for packet in step.send {
            if matches!(packet.octets[0], 0x0E | 0x0F | 0x1C | 0x1D) {
                self.sent += u32::try_from(packet.octets.len()).unwrap();
            }
            self.to_desk.send(self.now, packet);
        }
    }

    fn desk_sends(&mut self, step: Step) {
        assert!(step.send.iter().all(|packet| packet.peer == READER));
        step.send.into_iter().for_each(|packet| self.to_round.send(self.now, packet));
    }
}
