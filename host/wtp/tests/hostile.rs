//! Random octets and random calls: each is taken or refused, none panics, and every answer can be read.

mod common;

use common::{initiator, responder, table, PEER, SETTINGS};
use kit::Random;
use wtp::{codec, Name, Refused, Shown, Table, Taken};

const PDUS: usize = 10_000;

/// What is drawn for a call.
struct Dice(Random);

impl Dice {
    /// 0 to `bound` - 1.
    fn below(&mut self, bound: u16) -> u16 {
        u16::try_from(self.0.below(bound.into())).unwrap()
    }

    fn octet(&mut self) -> u8 {
        self.0.octet()
    }

    /// Mostly short, sometimes longer than a PDU may be.
    fn octets(&mut self) -> Vec<u8> {
        let longest = if self.0.percent(5) { 1_600 } else { 12 };
        let count = self.0.place(longest);
        self.0.octets(count)
    }

    fn peer(&mut self) -> u16 {
        PEER + self.below(2)
    }

    /// One of a few TIDs, or that of the latest request.
    fn tid(&mut self, latest: u16) -> u16 {
        [self.below(4), latest][usize::from(self.below(2))]
    }

    /// Octets that begin as a PDU of these TIDs does, so that they meet records and all their states.
    fn pdu(&mut self, latest: u16) -> Vec<u8> {
        let [high, low] = (self.tid(latest) | self.below(2) << 15).to_be_bytes();
        let mut pdu = self.octets();
        pdu.splice(0..0, [self.octet() & 0x7F, high, low]);
        pdu
    }

    fn name(&mut self, latest: u16) -> Name {
        let tid = self.tid(latest);
        let of = if self.below(2) == 0 { initiator(tid) } else { responder(tid) };
        Name { peer: self.peer(), ..of }
    }
}

/// A library and a wrapper that don't fit would show here.
fn understood<T>(answer: &Result<T, Refused>) {
    assert!(!matches!(answer, Err(Refused::Unknown(_) | Refused::Unreadable)));
}

/// A random call of a user, the timer, or a firing.
fn user_call(table: &mut Table, now: u64, latest: u16, dice: &mut Dice) -> Result<Taken, Refused> {
    let (of, octets) = (dice.name(latest), dice.octets());
    match dice.below(6) {
        0 => table.request(now, of.peer, u8::try_from(dice.below(4)).unwrap(), dice.below(2) == 0, &octets),
        1 => table.answer(now, of, &octets),
        2 => table.result(now, of, &octets),
        3 => table.abort(now, of, dice.octet()),
        4 => table.fire(now, of),
        _ => table.timer(now),
    }
}

#[test]
fn random_octets_are_taken_or_refused() {
    let (mut dice, mut table) = (Dice(Random::new(0x5EED)), table(4));
    for now in (0..).take(PDUS) {
        let octets = dice.octets();
        let answer = table.receive(now, dice.peer(), &octets);
        understood(&answer);
        assert_eq!(answer.is_ok(), (1..=1_500).contains(&octets.len()));
    }
}

/// The case of an indication: 0 to 4.
fn case(shown: &Shown) -> usize {
    match shown {
        Shown::Invoke { .. } => 0,
        Shown::Confirmation { .. } => 1,
        Shown::Result { .. } => 2,
        Shown::EmptyResult { .. } => 3,
        Shown::Abort { .. } => 4,
    }
}

#[test]
fn pdus_between_random_calls_are_taken_or_refused() {
    let mut dice = Dice(Random::new(0xD1CE));
    let mut table = Table::fresh(4, &SETTINGS, 0).unwrap();
    let (mut latest, mut cases) = (0, [0; 5]);
    for step in (0..).take(4 * PDUS) {
        let now = step * 500;
        let pdu = dice.pdu(latest);
        for answer in [table.receive(now, dice.peer(), &pdu), user_call(&mut table, now, latest, &mut dice)] {
            understood(&answer);
            understood(&table.deadline());
            if let Ok(taken) = answer {
                latest = taken.tid.unwrap_or(latest);
                taken.shown.iter().for_each(|shown| cases[case(shown)] += 1);
            }
        }
    }
    assert!(cases.iter().all(|times| *times > 0), "not every case was met: {cases:?}");
}

#[test]
fn random_octets_are_read_and_separated_or_refused() {
    let mut dice = Dice(Random::new(0xC0DEC));
    for _ in 0..PDUS {
        let pdu = dice.pdu(0);
        understood(&codec::separate(&pdu));
        let fields = codec::read(&pdu);
        understood(&fields);
        if let Ok(fields) = fields {
            let written = codec::write(&fields, &pdu).unwrap();
            assert_eq!(codec::read(&written), Ok(fields));
        }
    }
}

#[test]
fn random_words_are_written_or_refused() {
    let mut dice = Dice(Random::new(0xF1E1D5));
    for _ in 0..PDUS {
        let mut fields = [0; 88];
        for _ in 0..dice.below(6) {
            fields[usize::from(dice.below(88))] = if dice.below(4) == 0 { dice.0.word() } else { u64::from(dice.below(9)) };
        }
        fields[codec::word::TYPE] = u64::from(dice.below(9));
        understood(&codec::write(&fields, &dice.octets()));
    }
}

#[test]
fn a_table_of_random_octets_is_refused() {
    let mut dice = Dice(Random::new(0x7AB1E));
    let bytes = table(1).octets().0.len();
    for _ in 0..1_000 {
        let octets = (0..bytes).map(|_| dice.octet()).collect();
        let mut table = Table::kept(octets, vec![0; 1_024]);
        let before = table.clone();
        assert_eq!(table.timer(0), Err(Refused::WrongSize));
        assert_eq!(table.deadline(), Err(Refused::WrongSize));
        assert!(table == before);
    }
}
