//! A reader and a gateway, without sockets and with a fake clock: one outcome each, and which.

use crate::world::{value, World, MANNER, NO_FAULTS, PATIENCE};
use link::book::Entry;
use link::line::Faults;
use link::outcome::{Aborted, Outcome, Why};
use link::reason;
use link::round::Manner;
use wtp::{Abort, Reason};

const EVERY_ENTRY: usize = 6;

/// An entry of each kind in turn.
fn entry(number: usize) -> Entry {
    let kinds = [value(number), Entry::Empty, Entry::Abort(2), Entry::Silent, Entry::Damaged, Entry::Unheard];
    kinds[number % EVERY_ENTRY].clone()
}

fn outcomes(entries: &[Entry], to_desk: Faults, to_round: Faults) -> Vec<Outcome> {
    World::new(entries, 48, MANNER, to_desk, to_round).run()
}

/// What a line without faults brings.
fn expected(entry: &Entry) -> Outcome {
    match entry {
        Entry::Value(value) => Outcome::Value(value.clone()),
        Entry::Empty => Outcome::EmptyResult,
        Entry::Abort(octet) => Outcome::Abort(Aborted::Shown(Abort::User(*octet))),
        Entry::Silent => Outcome::Abort(Aborted::Shown(Abort::Provider(Reason::NoResponse))),
        Entry::Damaged => Outcome::Abort(Aborted::Shown(Abort::Provider(Reason::ProtocolError))),
        Entry::Unheard => Outcome::NoAnswer(Why::NoResponse),
    }
}

/// What may be seen where datagrams are lost: the same, or no answer, since an Abort is sent only once.
fn may_be(entry: &Entry, outcome: &Outcome) -> bool {
    *outcome == expected(entry) || matches!(outcome, Outcome::NoAnswer(_))
}

#[test]
fn without_faults_each_sampler_has_the_outcome_of_its_entry() {
    let entries: Vec<_> = (0..60).map(entry).collect();
    let seen = outcomes(&entries, NO_FAULTS, NO_FAULTS);
    assert!(seen.iter().eq(entries.iter().map(expected).collect::<Vec<_>>().iter()), "{seen:?}");
}

#[test]
fn on_a_bad_line_no_outcome_of_thousands_is_another_one() {
    let entries: Vec<_> = (0..2_000).map(entry).collect();
    let faults = Faults { loss: 15, duplicate: 25, delay: 400 };
    let seen = outcomes(&entries, faults, faults);
    assert_eq!(seen.len(), entries.len());
    for (number, (entry, outcome)) in entries.iter().zip(&seen).enumerate() {
        assert!(may_be(entry, outcome), "sampler {number}, {entry:?}: {outcome:?}");
    }
    let as_expected = entries.iter().zip(&seen).filter(|(entry, outcome)| **outcome == expected(entry)).count();
    assert!(as_expected > entries.len() * 8 / 10, "only {as_expected} of {}", entries.len());
}

#[test]
fn values_come_through_where_only_the_reader_loses_datagrams() {
    let entries: Vec<_> = (0..500).map(value).collect();
    let seen = outcomes(&entries, Faults { loss: 20, duplicate: 20, delay: 60 }, Faults { loss: 0, duplicate: 20, delay: 60 });
    assert!(seen.iter().eq(entries.iter().map(expected).collect::<Vec<_>>().iter()));
}

#[test]
fn a_dead_line_is_no_answer_for_all() {
    let dead = Faults { loss: 100, duplicate: 0, delay: 0 };
    for (to_desk, to_round) in [(dead, NO_FAULTS), (NO_FAULTS, dead)] {
        let seen = outcomes(&(0..12).map(entry).collect::<Vec<_>>(), to_desk, to_round);
        assert!(seen.iter().all(|outcome| *outcome == Outcome::NoAnswer(Why::NoResponse)), "{seen:?}");
    }
}

#[test]
fn one_record_is_enough_for_many_samplers() {
    let entries: Vec<_> = (0..12).map(entry).collect();
    let seen = World::new(&entries, 1, MANNER, NO_FAULTS, NO_FAULTS).run();
    assert!(seen.iter().eq(entries.iter().map(expected).collect::<Vec<_>>().iter()), "{seen:?}");
}

#[test]
fn a_hold_on_without_an_end_is_given_up() {
    let manner = Manner { user_ack: false, ..MANNER };
    let mut world = World::new(&[Entry::Silent, value(1), Entry::Empty], 8, manner, NO_FAULTS, NO_FAULTS);
    let seen = world.run();
    assert!(matches!(seen[0], Outcome::NoAnswer(Why::GaveUp(waited)) if waited >= PATIENCE), "{:?}", seen[0]);
    assert_eq!(seen[1..], [expected(&value(1)), Outcome::EmptyResult]);
    assert_eq!(world.desk.tally().aborted, 1, "the gateway's user is shown the reader's abort");
    assert_eq!(world.round.costs().iter().sum::<u32>(), world.sent);
}

#[test]
fn an_interrupted_round_keeps_what_it_knows_and_aborts_the_rest() {
    let entries = [value(0), Entry::Silent, Entry::Empty, value(3), value(4)];
    let mut world = World::new(&entries, 3, MANNER, NO_FAULTS, NO_FAULTS);
    while world.round.finished() < 2 {
        world.wake();
    }
    let step = world.round.interrupt(world.now);
    let live = [0x21, 0x7F, 0xF9, reason::STOPPED];
    assert_eq!(step.send.iter().map(|packet| &packet.octets[..]).collect::<Vec<_>>(), [&live]);
    let interrupted = Some(Outcome::NoAnswer(Why::Interrupted));
    let known = |entry| Some(expected(entry));
    let seen = [known(&entries[0]), interrupted.clone(), known(&entries[2]), interrupted.clone(), interrupted];
    assert_eq!(world.round.outcomes(), seen);
    assert!(world.round.is_finished());
    assert_eq!(
        (world.round.costs()[3..].to_vec(), world.round.costs().iter().sum()),
        (vec![0, 0], world.sent),
        "two weren't asked for"
    );
}

#[test]
fn a_sampler_costs_its_invokes_and_tidoks_up_to_its_outcome() {
    let entries = [value(0), Entry::Empty, Entry::Abort(2), Entry::Damaged, Entry::Unheard];
    let mut world = World::new(&entries, 1, MANNER, NO_FAULTS, NO_FAULTS);
    world.run();
    // An Invoke has 17 octets and a TIDok 3; the first request is verified, and the last is repeated eight times.
    assert_eq!(world.round.costs(), [20, 17, 17, 17, 9 * 17]);
}

#[test]
fn on_a_bad_line_the_costs_are_together_what_the_reader_sent() {
    let entries: Vec<_> = (0..300).map(entry).collect();
    let faults = Faults { loss: 25, duplicate: 25, delay: 400 };
    let mut world = World::new(&entries, 8, MANNER, faults, faults);
    world.run();
    assert!(world.round.costs().iter().all(|cost| (17..=9 * 17).contains(cost)));
    assert_eq!(world.round.costs().iter().sum::<u32>(), world.sent);
}

#[test]
fn a_reader_that_restarts_with_lower_tids_is_verified_once_and_so_is_one_whose_tids_came_round() {
    let entries: Vec<_> = (0..20).map(value).collect();
    let mut world = World::new(&entries, 1, MANNER, NO_FAULTS, NO_FAULTS);
    world.run();
    assert_eq!(world.desk.tally().verifications, 2, "the first request, and the first after GenTID came back to 0");
    for (restarts, first_tid) in [(1, 5), (2, 1), (3, 32_000)] {
        world.restart(first_tid);
        let seen = world.run();
        assert!(seen.iter().eq(entries.iter().map(expected).collect::<Vec<_>>().iter()), "{seen:?}");
        assert_eq!(world.desk.tally().verifications, 2 + restarts, "first TID {first_tid}");
    }
}

#[test]
fn every_result_is_confirmed_to_the_gateways_user() {
    let entries: Vec<_> = (0..200).map(|number| if number % 2 == 0 { value(number) } else { Entry::Empty }).collect();
    let mut world = World::new(&entries, 48, MANNER, NO_FAULTS, NO_FAULTS);
    world.run();
    let tally = world.desk.tally();
    assert_eq!((tally.asked, tally.values, tally.empty_results, tally.confirmed, tally.aborted), (200, 100, 100, 200, 0));
}
