//! How long either end may sleep: until its next time if nothing is heard, and for ever where it has none.

use crate::world::{sampler, table, value, World, INTERVAL, MANNER, NO_FAULTS, PATIENCE, W};
use link::book::{Book, Entry};
use link::desk::Desk;
use link::round::Round;
use link::step::End;

fn desk_with(entry: Entry) -> Desk {
    let mut book = Book::default();
    book.enter(sampler(1), entry);
    Desk::new(table(2), book)
}

/// Asks for the sampler 1 and has its TID verified, at this time.
fn ask(desk: &mut Desk, now: u64) {
    desk.datagram(now, 7, &[&[0x0E, 0, 1, 2][..], b"sampler 00001"].concat());
    assert_eq!(desk.next(), Some(now + PATIENCE), "while it is verified only the waiting limit ends it");
    desk.datagram(now, 7, &[0x1C, 0, 1]);
}

#[test]
fn a_gateway_that_nobody_asks_sleeps_for_ever() {
    let mut desk = desk_with(Entry::Empty);
    assert_eq!(desk.next(), None);
    assert!(desk.tick(1_000).send.is_empty());
    assert_eq!(desk.next(), None);
}

#[test]
fn a_gateway_sleeps_until_a_result_is_sent_again_and_for_ever_after_its_confirmation() {
    let mut desk = desk_with(Entry::Empty);
    ask(&mut desk, 10);
    assert_eq!(desk.next(), Some(10 + INTERVAL));
    assert_eq!(desk.tick(10 + INTERVAL).send[0].octets, [0x17, 0x80, 1]);
    assert_eq!(desk.next(), Some(10 + 2 * INTERVAL));
    desk.datagram(500, 7, &[0x18, 0, 1]);
    assert_eq!(desk.next(), None);
}

#[test]
fn a_gateway_whose_user_is_silent_sleeps_until_the_hold_on_and_then_until_its_waiting_limit() {
    let mut desk = desk_with(Entry::Silent);
    ask(&mut desk, 10);
    assert_eq!(desk.next(), Some(10 + INTERVAL));
    assert_eq!(desk.tick(10 + INTERVAL).send[0].octets, [0x18, 0x80, 1]);
    assert_eq!(desk.next(), Some(10 + INTERVAL + PATIENCE));
    assert_eq!(desk.tick(10 + INTERVAL + PATIENCE).send[0].octets, [0x20, 0x80, 1, 8]);
    assert_eq!(desk.next(), None);
}

#[test]
fn a_reader_sleeps_until_its_repeat_then_until_its_patience_ends_and_then_while_repeats_are_answered() {
    let mut round = Round::new(table(1), vec![sampler(1)], MANNER);
    assert_eq!(round.tick(10).send.len(), 1);
    assert_eq!(round.next(), Some(10 + INTERVAL));
    round.datagram(20, &[0x18, 0xFF, 0xF8]);
    assert_eq!(round.next(), Some(10 + PATIENCE), "held on");
    round.datagram(30, b"\x16\xFF\xF8NO2 7 ug/m3");
    assert_eq!(round.next(), Some(30 + W));
    assert!(!round.is_over(29 + W) && round.is_over(30 + W));
}

#[test]
fn after_a_round_nothing_is_due_at_the_gateway() {
    let entries = [value(0), Entry::Empty, Entry::Abort(1), Entry::Silent, Entry::Unheard, Entry::Damaged];
    let mut world = World::new(&entries, 4, MANNER, NO_FAULTS, NO_FAULTS);
    world.run();
    assert_eq!(world.desk.next(), None);
}
