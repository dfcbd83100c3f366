//! Random octets, words and calls: each is taken or refused, none panics, and every answer can be read.

use kit::Random;
use rds::{Book, Event, Refused, Side};

const TIMES: usize = 20_000;

/// A library and a wrapper that don't fit would show here.
fn understood<T>(answer: &Result<T, Refused>) {
    assert!(!matches!(answer, Err(Refused::Unknown(_) | Refused::Unreadable)));
}

/// Octets that begin as a frame does, mostly as a MANAGE_PORT of the side that the book hears.
fn frame(random: &mut Random) -> Vec<u8> {
    let longest = if random.percent(3) { 1_600 } else { 30 };
    let count = random.place(longest);
    let mut frame = random.octets(count);
    if random.percent(70) {
        let (action, ports) = (random.below(8) as u8, random.octet());
        frame.splice(0..0, [random.of(&[0x70, 0x74]), 0x0A, action, ports]);
        frame.iter_mut().skip(4 + 16).take(1).for_each(|length| *length = count.saturating_sub(17) as u8);
    }
    frame
}

#[test]
fn random_frames_are_read_and_written_back_or_refused() {
    let mut random = Random::new(0xF0);
    let mut read = 0;
    for _ in 0..TIMES {
        let octets = frame(&mut random);
        for side in [Side::Ue, Side::Network] {
            understood(&rds::take(&octets, side));
            let frame = rds::read(&octets, side);
            understood(&frame);
            if let Ok(frame) = frame {
                let written = rds::write(&frame, side).unwrap();
                assert_eq!(rds::read(&written, side), Ok(frame));
                read += 1;
            }
        }
    }
    assert!(read > TIMES / 10, "{read}");
}

#[test]
fn random_calls_and_frames_over_a_book_are_taken_or_refused() {
    let mut random = Random::new(0xB00C);
    let mut book = Book::fresh(Side::Ue, 5).unwrap();
    let mut events = [0; 4];
    for _ in 0..TIMES {
        let (own, peers) = (random.below(17) as u8, random.below(17) as u8);
        let application = [&[7; 16][..], &[0]].concat();
        match random.below(6) {
            0 => understood(&book.reserve(own, peers, random.percent(50), &application)),
            1 => understood(&book.release(own)),
            2 => understood(&book.again()),
            3 if random.percent(10) => understood(&book.abandon()),
            _ => understood(&book.port(own)),
        }
        understood(&book.outstanding());
        let received = book.receive(&frame(&mut random));
        understood(&received);
        if let Ok(received) = received {
            events[kind(&received.event)] += 1;
        }
    }
    assert!(events.iter().all(|times| *times > 0), "not every event was met: {events:?}");
}

fn kind(event: &Event) -> usize {
    match event {
        Event::Nothing => 0,
        Event::Answered { .. } => 1,
        Event::Settled { .. } => 2,
        Event::NotBuilt { .. } => 3,
    }
}

#[test]
fn a_book_of_random_octets_is_refused() {
    let mut random = Random::new(0x7AB1E);
    let bytes = Book::fresh(Side::Ue, 0).unwrap().octets().len();
    for _ in 0..1_000 {
        let mut book = Book::kept(random.octets(bytes));
        let before = book.clone();
        assert_eq!(book.receive(&[0x40]), Err(Refused::WrongSize));
        assert_eq!(book.outstanding(), Err(Refused::WrongSize));
        assert_eq!(book, before);
    }
}
