//! A reader and a gateway behind modems that speak RDS, on a fake clock: the same outcomes on a bad line, ports that are reserved and
//! released, and no call of WTP for a frame that is malformed or not for us.

use crate::world::{gateway_table, sampler, table, value, INTERVAL, MANNER, NO_FAULTS, PATIENCE};
use kit::Random;
use link::book::{Book, Entry};
use link::desk::Desk;
use link::line::{Faults, Line};
use link::modem::{Modem, Tally};
use link::notes::Notes;
use link::outcome::{Outcome, Why};
use link::round::{Round, GATEWAY};
use link::step::{earliest, End, Packet, Step};
use link::wire::{Repeats, APPLICATION, GATEWAY_PORT, READER_PORT};
use rds::Side;
use wtp::Table;

const REPEATS: Repeats = Repeats { after: INTERVAL, times: 8 };
const READER: u16 = 9;

/// An end, and how often a datagram was handed on to it: only then is a PDU received by WTP.
struct Counted<E> {
    end: E,
    heard: u64,
}

impl<E: End> End for Counted<E> {
    fn tick(&mut self, now: u64) -> Step {
        self.end.tick(now)
    }

    fn hear(&mut self, now: u64, packet: &Packet) -> Step {
        self.heard += 1;
        self.end.hear(now, packet)
    }

    fn table(&self) -> &Table {
        self.end.table()
    }

    fn notes(&self) -> Notes {
        self.end.notes()
    }

    fn next(&self) -> Option<u64> {
        self.end.next()
    }
}

struct Air {
    reader: Modem<Counted<Round>>,
    gateway: Modem<Counted<Desk>>,
    to_gateway: Line,
    to_reader: Line,
    now: u64,
    /// All frames that came to the gateway.
    came: Vec<Vec<u8>>,
}

impl Air {
    fn new(entries: &[Entry], faults: Faults) -> Air {
        let mut book = Book::default();
        entries.iter().enumerate().for_each(|(number, entry)| assert!(book.enter(sampler(number), entry.clone())));
        let round = Round::new(table(8), (0..entries.len()).map(sampler).collect(), MANNER);
        let desk = Desk::new(gateway_table(8), book);
        Air {
            reader: Modem::rds(Counted { end: round, heard: 0 }, Side::Ue, REPEATS),
            gateway: Modem::rds(Counted { end: desk, heard: 0 }, Side::Network, REPEATS),
            to_gateway: Line::new(faults, 1),
            to_reader: Line::new(faults, 2),
            now: 0,
            came: Vec::new(),
        }
    }

    fn round(&self) -> &Round {
        &self.reader.end.end
    }

    fn reader_sends(&mut self, step: Step) {
        step.send.into_iter().for_each(|packet| self.to_gateway.send(self.now, packet));
    }

    fn gateway_sends(&mut self, step: Step) {
        step.send.into_iter().for_each(|packet| self.to_reader.send(self.now, packet));
    }

    /// Both ends do what is due, then the clock goes on to what is due next, and what has come until then is heard.
    fn turn(&mut self) {
        let (reader, gateway) = (self.reader.tick(self.now), self.gateway.tick(self.now));
        self.reader_sends(reader);
        self.gateway_sends(gateway);
        let next = earliest(&[self.reader.next(), self.gateway.next(), self.to_gateway.next(), self.to_reader.next()]);
        self.now = next.expect("both ends sleep for ever").max(self.now + 1);
        for packet in self.to_gateway.leaving(self.now) {
            self.came.push(packet.octets.clone());
            let step = self.gateway.hear(self.now, &Packet { peer: READER, ..packet });
            self.gateway_sends(step);
        }
        for packet in self.to_reader.leaving(self.now) {
            let step = self.reader.hear(self.now, &Packet { peer: GATEWAY, ..packet });
            self.reader_sends(step);
        }
    }

    /// Until each sampler has its outcome and the port is released or given up; `between` is done after each turn.
    fn run(&mut self, mut between: impl FnMut(&mut Air)) -> Vec<Outcome> {
        while !self.round().is_over(self.now) && !self.reader.has_failed() {
            self.turn();
            between(self);
            assert!(self.now < 100 * PATIENCE, "the round doesn't end");
        }
        let step = self.reader.close(self.now);
        self.reader_sends(step);
        while !self.reader.is_closed() {
            self.turn();
            between(self);
        }
        self.round().outcomes().iter().flatten().cloned().collect()
    }
}

fn entries() -> Vec<Entry> {
    (0..60).map(|number| if number % 3 == 2 { Entry::Empty } else { value(number) }).collect()
}

fn expected(entry: &Entry) -> Outcome {
    match entry {
        Entry::Value(value) => Outcome::Value(value.clone()),
        _ => Outcome::EmptyResult,
    }
}

/// A sound frame spoilt: another protocol, its header cut, SACK cleared, an octet after its end, or too long.
fn spoilt(random: &mut Random, frame: &[u8]) -> Vec<u8> {
    let mut frame = frame.to_vec();
    match random.below(4) {
        0 => frame[0] |= 0x80,
        1 => frame.truncate(1),
        2 => frame.resize(1_523 + 1, 0),
        _ => frame = vec![frame[0] & 7, 0x02, 0x0E, 0, 5, 2],
    }
    frame
}

#[test]
fn on_a_bad_line_with_malformed_frames_each_sampler_has_its_outcome_and_wtp_is_not_called_for_them() {
    let entries = entries();
    let mut air = Air::new(&entries, Faults { loss: 20, duplicate: 20, delay: 60 });
    let mut random = Random::new(3);
    let mut made = 0;
    let seen = air.run(|air| {
        let genuine = air.came.last().filter(|frame| frame.len() > 1).cloned();
        if let Some(frame) = genuine {
            let (frame, before) = (spoilt(&mut random, &frame), air.gateway.end.heard);
            let step = air.gateway.hear(air.now, &Packet { peer: READER, octets: frame.clone() });
            assert_eq!((step.send.len(), air.gateway.end.heard), (0, before), "{frame:02X?}");
            assert_eq!(step.log.len(), 1, "it is told: {:?}", step.log);
            made += 1;
        }
    });
    assert!(seen.iter().eq(entries.iter().map(expected).collect::<Vec<_>>().iter()), "{seen:?}");
    let Tally { handed_on, malformed, .. } = air.gateway.tally().unwrap();
    assert_eq!((malformed, handed_on), (made, air.gateway.end.heard));
    assert!(made > 50, "{made}");
    assert!(air.reader.has_failed() && air.reader.next() == Some(0), "the reader's port is free again");
}

#[test]
fn the_first_frame_reserves_and_the_last_releases() {
    let mut air = Air::new(&[value(1)], NO_FAULTS);
    assert_eq!(air.run(|_| ()), [expected(&value(1))]);
    let ports = READER_PORT << 4 | GATEWAY_PORT;
    let managed = |action| [&[0x70, 0x0A, action, ports], &APPLICATION[..]].concat();
    assert_eq!((air.came.first(), air.came.last()), (Some(&managed(1)), Some(&managed(2))));
    let between = &air.came[1..air.came.len() - 1];
    assert!(between.iter().zip(0..).all(|(frame, number)| frame[..2] == [0x48 | number % 8, ports]), "{between:02X?}");
}

#[test]
fn a_datagram_between_other_ports_or_before_they_are_reserved_goes_nowhere() {
    let invoke = [0x0E, 0, 5, 2, b'x'];
    let mut air = Air::new(&[value(1)], NO_FAULTS);
    let frame = |source, destination| rds::put(&invoke, Some(rds::Ports { source, destination }), 0).unwrap().frame;
    let hear = |air: &mut Air, octets: Vec<u8>| air.gateway.hear(air.now, &Packet { peer: READER, octets });
    let step = hear(&mut air, frame(READER_PORT, GATEWAY_PORT));
    assert_eq!((step.send.len(), air.gateway.end.heard), (0, 0), "nothing is reserved");
    let reserve = [&[0x70, 0x0A, 1, READER_PORT << 4 | GATEWAY_PORT], &APPLICATION[..]].concat();
    assert_eq!(hear(&mut air, reserve).send, [Packet { peer: READER, octets: vec![0x70, 0x0A, 1, 0] }]);
    let plain = rds::put(&invoke, None, 0).unwrap().frame;
    for octets in [plain, frame(READER_PORT, 6), frame(4, GATEWAY_PORT), vec![0x02, 0x0B, 1], vec![0x60, 0x43]] {
        let step = hear(&mut air, octets);
        assert_eq!((step.send.len(), step.log.len(), air.gateway.end.heard), (0, 1, 0), "{:?}", step.log);
    }
    assert_eq!(hear(&mut air, frame(READER_PORT, GATEWAY_PORT)).send.len(), 1, "a TIDve");
    assert_eq!(air.gateway.tally(), Some(Tally { handed_on: 1, malformed: 0, dropped: 6 }));
}

#[test]
fn a_command_that_nobody_answers_is_repeated_and_given_up() {
    let mut air = Air::new(&[value(1), Entry::Empty], Faults { loss: 100, ..NO_FAULTS });
    let mut sent = 0;
    while !air.reader.has_failed() {
        let step = air.reader.tick(air.now);
        sent += step.send.len();
        air.now = air.reader.next().unwrap_or(0).max(air.now);
    }
    assert_eq!((sent, air.now), (9, 9 * INTERVAL), "once, and eight times again");
    let now = air.now;
    let step = air.reader.with(|counted| counted.end.stop(now, Why::NoPort));
    assert_eq!((step.send, air.reader.next()), (vec![], Some(0)), "nothing is sent, and nothing is slept for");
    assert!(air.round().outcomes().iter().all(|outcome| *outcome == Some(Outcome::NoAnswer(Why::NoPort))));
}

#[test]
fn a_gateway_that_is_stopped_releases_its_ports_and_its_reader_sees_it() {
    let mut air = Air::new(&[Entry::Silent], NO_FAULTS);
    while air.gateway.end.heard < 2 {
        air.turn();
    }
    let step = air.gateway.close(air.now);
    let release = [&[0x74, 0x0A, 2, GATEWAY_PORT << 4 | READER_PORT], &APPLICATION[..]].concat();
    assert_eq!(step.send, [Packet { peer: READER, octets: release }]);
    air.gateway_sends(step);
    while !air.reader.has_failed() {
        air.turn();
    }
    assert_eq!(air.round().outcomes(), [None], "the reader stops, and says so");
    air.turn();
    assert!(air.gateway.is_closed(), "the reader's answer came");
}
