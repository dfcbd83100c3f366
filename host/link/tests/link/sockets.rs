//! The same conversation over real sockets on loopback.

use crate::world::{sampler, table, value, MANNER, NO_FAULTS};
use link::book::{Book, Entry};
use link::desk::Desk;
use link::line::Line;
use link::outcome::Kind;
use link::post::{address, Heard, Post};
use link::round::{Manner, Round};
use link::step::End;
use std::net::{SocketAddr, UdpSocket};

fn free() -> SocketAddr {
    SocketAddr::from(([127, 0, 0, 1], 0))
}

fn line() -> Line {
    Line::new(NO_FAULTS, 1)
}

/// Waits for the next datagram; all that is sent on loopback arrives.
fn heard(post: &mut Post) -> Vec<u8> {
    match post.hear(None) {
        Heard::Datagram(packet) => packet.octets,
        other => panic!("{other:?}"),
    }
}

#[test]
fn a_round_over_loopback() {
    let mut book = Book::default();
    for (number, entry) in [value(0), Entry::Empty, Entry::Abort(1)].into_iter().enumerate() {
        book.enter(sampler(number), entry);
    }
    let mut gateway = (Post::bind(free(), line()).unwrap(), Desk::new(table(4), book));
    let samplers = (0..4).map(sampler).collect();
    let post = Post::towards(gateway.0.local().unwrap(), line()).unwrap();
    let mut reader = (post, Round::new(table(4), samplers, MANNER));
    // One after the other, each end is looked at without a wait.
    while !reader.1.is_finished() {
        let log = [reader.0.tick(&mut reader.1), reader.0.listen(&mut reader.1, Some(0))].concat();
        assert!(log.is_empty(), "{log:?}");
        gateway.0.tick(&mut gateway.1);
        gateway.0.listen(&mut gateway.1, Some(0));
    }
    let kinds: Vec<_> = reader.1.outcomes().iter().flatten().map(|outcome| outcome.kind()).collect();
    assert_eq!(kinds, [Kind::Value, Kind::EmptyResult, Kind::Abort, Kind::Abort]);
}

#[test]
fn a_datagram_of_no_octet_and_one_that_is_too_long_are_seen_as_they_are() {
    let mut post = Post::bind(free(), line()).unwrap();
    let peer = UdpSocket::bind(free()).unwrap();
    for length in [0, 1_500, 1_501, 9_000] {
        peer.send_to(&vec![7; length], post.local().unwrap()).unwrap();
        assert_eq!(heard(&mut post).len(), length);
    }
}

#[test]
fn a_closed_port_is_only_no_answer() {
    let closed = UdpSocket::bind(free()).unwrap().local_addr().unwrap();
    let mut post = Post::towards(closed, line()).unwrap();
    let manner = Manner { patience: 150, ..MANNER };
    let mut round = Round::new(table(1), vec![sampler(0)], manner);
    let step = round.tick(post.now());
    assert!(post.carry_out(step).is_empty());
    assert_eq!(post.hear(None), Heard::Closed);
    while !round.is_finished() {
        let log = [post.tick(&mut round), post.listen(&mut round, None)].concat();
        assert!(log.is_empty(), "{log:?}");
    }
    assert!(round.outcomes().iter().flatten().all(|outcome| outcome.kind() == Kind::NoAnswer));
}

#[test]
fn a_wait_ends_at_its_time_and_is_counted() {
    let mut post = Post::bind(free(), line()).unwrap();
    let desk = &mut Desk::new(table(1), Book::default());
    assert_eq!(desk.next(), None, "nothing is due, so that only a datagram or a signal wakes it");
    post.listen(desk, Some(0));
    assert!(post.summary().ends_with("; woke up once"), "{}", post.summary());
    let time = post.now() + 20;
    assert_eq!(post.hear(Some(time)), Heard::Nothing);
    assert!(post.now() >= time);
    assert!(post.summary().ends_with("; woke up 2 times"), "{}", post.summary());
}

#[test]
fn time_goes_on_from_what_was_kept_and_so_does_a_wait() {
    let mut post = Post::bind(free(), line()).unwrap();
    post.go_on_from(1_000_000);
    let start = post.now();
    assert!((1_000_000..1_001_000).contains(&start));
    assert_eq!(post.hear(Some(start + 20)), Heard::Nothing);
    assert!(post.now() >= start + 20);
    assert_eq!(post.hear(Some(20)), Heard::Nothing, "a time that has passed isn't waited for");
}

#[test]
fn the_257th_peer_is_refused_and_the_others_are_still_heard() {
    let mut post = Post::bind(free(), line()).unwrap();
    (0..256).for_each(|port| assert!(post.peers.number(SocketAddr::from(([127, 0, 0, 2], port))).is_some()));
    let peer = UdpSocket::bind(free()).unwrap();
    peer.send_to(&[1], post.local().unwrap()).unwrap();
    let refused = post.hear(None);
    let from = peer.local_addr().unwrap();
    let line = format!("a datagram of 1 octets from {from} was dropped: there are 256 peers already");
    assert_eq!(refused, Heard::Trouble(line));
}

#[test]
fn a_port_in_use_and_a_wrong_address_are_named() {
    let first = Post::bind(free(), line()).unwrap();
    let taken = first.local().unwrap();
    let message = Post::bind(taken, line()).err().unwrap();
    assert!(message.starts_with(&format!("{taken} can't be used: ")), "{message}");
    for text in ["", "127.0.0.1", "127.0.0.1:99999", ":"] {
        assert!(address(text).unwrap_err().contains("isn't an address"), "{text:?}");
    }
}
