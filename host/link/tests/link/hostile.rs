//! Datagrams that no honest peer sends: nothing is lost, nothing is shown as a value, nothing panics.

use crate::world::{table, value, World, INTERVAL, MANNER, NO_FAULTS, PATIENCE};
use kit::Random;
use link::book::{Book, Entry};
use link::desk::Desk;
use link::outcome::{Kind, Outcome, Why};
use link::payload::Sampler;
use link::round::Round;
use link::step::{End, Packet};

fn random_octets(random: &mut Random) -> Vec<u8> {
    let longest = if random.percent(5) { 1_600 } else { 12 };
    let count = random.place(longest);
    random.octets(count)
}

/// A round of one sampler, whose request has the TID 32,760.
fn asked() -> Round {
    let mut round = Round::new(table(1), vec![Sampler::of("1").unwrap()], MANNER);
    assert_eq!(round.tick(0).send.len(), 1);
    round
}

fn outcome(round: &Round) -> Option<(Kind, String)> {
    round.outcomes()[0].as_ref().map(|outcome| (outcome.kind(), outcome.to_string()))
}

#[test]
fn random_datagrams_leave_the_values_as_they_are() {
    let entries: Vec<_> = (0..100).map(value).collect();
    let mut world = World::new(&entries, 16, MANNER, NO_FAULTS, NO_FAULTS);
    let mut random = Random::new(5);
    while !world.round.is_finished() {
        world.wake();
        for peer in [1, 2, 255] {
            world.desk.datagram(world.now, peer, &random_octets(&mut random));
        }
        assert!(world.now < 100 * PATIENCE, "the round doesn't end");
    }
    for (entry, outcome) in entries.iter().zip(world.run()) {
        assert!(matches!((entry, &outcome), (Entry::Value(value), Outcome::Value(seen)) if value == seen), "{outcome:?}");
    }
}

#[test]
fn random_datagrams_never_make_a_value_or_an_empty_result_of_nothing() {
    let mut random = Random::new(6);
    for _ in 0..2_000 {
        let mut round = asked();
        let mut octets = random_octets(&mut random);
        let first = random.octet();
        // A Result of this TID would be a true one, so that its type isn't taken.
        octets.splice(0..0, [if first >> 3 & 15 == 2 { first ^ 8 } else { first }, 0xFF, 0xF8]);
        round.datagram(1, &octets);
        assert!(!matches!(outcome(&round), Some((Kind::Value | Kind::EmptyResult, _))));
    }
}

#[test]
fn a_result_of_other_octets_is_aborted_and_shown_safely() {
    let mut round = asked();
    let step = round.datagram(1, &[0x16, 0xFF, 0xF8, 0x1B, b'[', b'2', b'J', 0]);
    assert_eq!(step.send, [Packet { peer: 0, octets: vec![0x21, 0x7F, 0xF8, 14] }]);
    let detail = r#"by the user, this reader: the result can't be read (reason 14): "\x1b[2J\x00""#;
    assert_eq!(outcome(&round), Some((Kind::Abort, detail.into())));
}

#[test]
fn an_abort_after_the_result_changes_no_outcome() {
    let mut round = asked();
    round.datagram(1, b"\x16\xFF\xF8NO2 7 ug/m3");
    let step = round.datagram(2, &[0x21, 0xFF, 0xF8, 1]);
    assert_eq!(outcome(&round), Some((Kind::Value, "NO2 7 ug/m3".into())));
    assert_eq!(step.log.len(), 1, "but it is told");
}

#[test]
fn an_abort_before_the_result_stays_an_abort() {
    let mut round = asked();
    round.datagram(1, &[0x20, 0xFF, 0xF8, 8]);
    round.datagram(2, b"\x16\xFF\xF8NO2 7 ug/m3");
    round.datagram(3, &[0x16, 0xFF, 0xF8]);
    let detail = "by the provider: no response (the gateway sent it: its user didn't answer)";
    assert_eq!(outcome(&round), Some((Kind::Abort, detail.into())));
}

#[test]
fn after_a_hold_on_the_reader_gives_up_and_says_so() {
    let mut round = asked();
    round.datagram(1, &[0x18, 0xFF, 0xF8]);
    assert!(round.tick(PATIENCE - 1).send.is_empty());
    assert_eq!(round.tick(PATIENCE).send, [Packet { peer: 0, octets: vec![0x21, 0x7F, 0xF8, 13] }]);
    assert_eq!(round.outcomes(), [Some(Outcome::NoAnswer(Why::GaveUp(PATIENCE)))]);
}

#[test]
fn wrong_lengths_are_told_and_end_nothing() {
    let mut round = asked();
    for length in [0, 1_501, 65_507] {
        let step = round.datagram(1, &vec![0x16; length]);
        assert_eq!((step.send.len(), step.log.len()), (0, 1));
    }
    assert_eq!(outcome(&round), None);
    round.interrupt(2);
    assert_eq!(round.outcomes(), [Some(Outcome::NoAnswer(Why::Interrupted))]);
}

/// A class 2 Invoke of this TID, for the sampler 1.
fn invoke(tid: u8) -> Vec<u8> {
    [&[0x0E, 0, tid, 2][..], b"sampler 1"].concat()
}

#[test]
fn verifications_that_nobody_ends_do_not_fill_the_table_for_ever() {
    let mut book = Book::default();
    book.enter(Sampler::of("1").unwrap(), Entry::Empty);
    let mut desk = Desk::new(table(2), book);
    for tid in 1..=2 {
        assert_eq!(desk.datagram(0, 7, &invoke(tid)).send[0].octets, [0x1C, 0x80, tid]);
    }
    assert!(desk.datagram(1, 8, &invoke(3)).send.is_empty(), "the table is full");
    desk.tick(PATIENCE - 1);
    assert!(desk.datagram(PATIENCE - 1, 8, &invoke(3)).send.is_empty(), "it still is");
    let step = desk.tick(PATIENCE);
    assert!(step.send.is_empty() && step.log.is_empty(), "they end silently");
    assert_eq!(desk.datagram(PATIENCE + 1, 8, &invoke(3)).send[0].octets, [0x1C, 0x80, 3]);
    let shown = desk.datagram(PATIENCE + 2, 8, &[0x1C, 0, 3]);
    assert_eq!(shown.send[0].octets, [0x16, 0x80, 3]);
}

#[test]
fn an_invoke_that_comes_to_a_reader_does_not_keep_it_from_asking_for_ever() {
    let mut round = Round::new(table(1), vec![Sampler::of("1").unwrap()], MANNER);
    assert_eq!(round.datagram(0, &invoke(1)).send[0].octets, [0x1C, 0x80, 1]);
    assert!(round.tick(0).send.is_empty(), "its one record is taken");
    assert_eq!(round.next(), Some(PATIENCE));
    assert_eq!(round.tick(PATIENCE).send[0].octets[..4], [0x0E, 0x7F, 0xF8, 0x32]);
}

#[test]
fn a_user_who_never_answers_after_a_hold_on_ends_in_an_abort() {
    let mut book = Book::default();
    book.enter(Sampler::of("1").unwrap(), Entry::Silent);
    let mut desk = Desk::new(table(1), book);
    desk.datagram(0, 7, &invoke(1));
    assert!(desk.datagram(0, 7, &[0x1C, 0, 1]).send.is_empty());
    assert_eq!(desk.tick(INTERVAL).send, [Packet { peer: 7, octets: vec![0x18, 0x80, 1] }]);
    assert!(desk.tick(INTERVAL + PATIENCE - 1).send.is_empty());
    let step = desk.tick(INTERVAL + PATIENCE);
    assert_eq!(step.send, [Packet { peer: 7, octets: vec![0x20, 0x80, 1, 8] }]);
    assert_eq!(step.log, ["peer 7, TID 1: aborted by the provider: no response"]);
    assert!(desk.interrupt(INTERVAL + PATIENCE).send.is_empty(), "the user has nothing to answer any more");
}

#[test]
fn a_gateway_that_is_stopped_aborts_what_its_user_was_shown_and_nothing_else() {
    let mut book = Book::default();
    book.enter(Sampler::of("1").unwrap(), Entry::Silent);
    let mut desk = Desk::new(table(2), book);
    desk.datagram(0, 7, &invoke(1));
    desk.datagram(0, 7, &invoke(2));
    desk.datagram(0, 7, &[0x1C, 0, 1]);
    assert_eq!(desk.interrupt(1).send, [Packet { peer: 7, octets: vec![0x21, 0x80, 1, 12] }]);
    assert_eq!(desk.tally().verifications, 2);
}

#[test]
fn a_verification_that_its_reader_ends_leaves_nothing_to_wait_for() {
    let mut desk = Desk::new(table(1), Book::default());
    for tid in 1..=3 {
        assert_eq!(desk.datagram(0, 7, &invoke(tid)).send[0].octets, [0x1C, 0x80, tid]);
        // An Abort of the reader, and a malformed PDU: either frees the record.
        let end = if tid == 2 { [0x18, 0, tid, 0] } else { [0x20, 0, tid, 2] };
        desk.datagram(0, 7, &end);
    }
    assert_eq!(desk.next(), None);
}

#[test]
fn an_invoke_that_is_no_request_is_aborted_with_a_reason() {
    let mut desk = Desk::new(table(4), Book::default());
    let cases: [(&[u8], u8, u8); 3] = [(b"hello", 2, 11), (b"sampler 1", 1, 11), (b"sampler 1", 2, 10)];
    for ((data, class, reason), tid) in cases.into_iter().zip(1..) {
        // The first TID is verified; from the second on the TIDok finds no record any more.
        let mut sent = desk.datagram(0, 0, &[&[0x0E, 0, tid, class][..], data].concat()).send;
        sent.extend(desk.datagram(0, 0, &[0x1C, 0, tid]).send);
        assert_eq!(sent.last().unwrap().octets, [0x21, 0x80, tid, reason]);
    }
    let step = desk.datagram(0, 0, b"\x0E\x00\x09\x00\x1b[2J");
    assert_eq!(step.log, [r#"peer 0, TID 9: an Invoke of class 0, which can't be answered: "\x1b[2J""#]);
}
