//! What a request costs: the example of document 02's reading (L11), who is told of it, and that it is the sum of the history.

use super::tables::live;
use super::*;
use crate::Row;

const PEER: u64 = 7;
const MINE: [u64; 3] = [INITIATOR, PEER, 5];

fn end() -> End {
    End::of_the_reading(2, 5)
}

impl End {
    /// The cost that a received PDU tells.
    fn cost_of(&mut self, now: u64, pdu: &[u8]) -> [u64; 2] {
        assert_eq!(self.receive(now, PEER, pdu).number, 0);
        self.cost()
    }

    /// The cost that a firing tells.
    fn cost_of_a_firing(&mut self, now: u64) -> [u64; 2] {
        assert_eq!((self.timer(now).number, self.answer[3]), (0, 1));
        self.cost()
    }

    fn cost_of_a_request(&mut self, now: u64, class: u64, data: &[u8]) -> [u64; 2] {
        assert_eq!(self.request(now, PEER, class, 0, data).number, 0);
        self.cost()
    }

    /// What the record at a place keeps.
    fn cost_kept(&mut self, place: usize) -> [u8; 4] {
        let octets = &self.record(place)[25..29];
        [octets[0], octets[1], octets[2], octets[3]]
    }
}

#[test]
fn the_example_of_class_2_from_the_request_to_the_end_of_w() {
    let mut end = end();
    assert_eq!(end.cost_of_a_request(0, 2, &[1, 2, 3]), [7, 0]);
    assert_eq!((end.cost_of_a_firing(150), end.sent().len()), ([14, 0], 7));
    assert_eq!((end.cost_of(200, &[0x1C, 0x80, 5]), end.sent()), ([17, 0], vec![0x1C, 0, 5]));
    assert_eq!((end.cost_of(210, &[0x1C, 0x80, 5]), end.sent()), ([17, 0], vec![]), "RCR is at RCR_MAX");
    assert_eq!(end.cost_of(220, &[0x18, 0x80, 5]), [17, 0], "a hold-on doesn't end it");
    assert_eq!(end.cost_of(230, &[0x38, 0x80, 5, 0]), [17, 0], "a Nack is ignored");
    assert_eq!(end.cost_of(230, &[0x0E, 0x80, 5, 2]), [0, 0], "an Invoke with top bit 1 names nobody");
    assert_eq!(end.cost_of(240, &[0x16, 0x80, 5, 0xDD]), [17, 0]);
    assert_eq!(end.answer(250, MINE, &[0xAA]).number, 0);
    assert_eq!((end.cost(), end.sent().len()), ([17, 0], 5), "an Ack isn't counted");
    assert_eq!((end.cost_of(260, &[0x17, 0x80, 5, 0xDD]), end.sent().len()), ([17, 0], 5));
    assert_eq!(end.cost_kept(0), 17_u32.to_le_bytes());
    assert_eq!(end.cost_of_a_firing(450), [17, 1]);
    assert_eq!(end.record(0), [0; 176]);
}

#[test]
fn the_examples_of_class_1() {
    let mut end = end();
    assert_eq!(end.cost_of_a_request(0, 1, &[1]), [5, 0]);
    assert_eq!(end.cost_of(1, &[0x18, 0x80, 5]), [5, 1]);
    assert_eq!(end.cost_of_a_request(2, 1, &[]), [4, 0]);
    assert_eq!(end.abort(3, [INITIATOR, PEER, 6], 9).number, 0);
    assert_eq!((end.cost(), end.sent()), ([4, 1], vec![0x21, 0, 6, 9]), "the Abort isn't counted");
    let mut settings = settings_of_the_reading();
    settings[0] = 1;
    let mut end = End::with(1, 5, &settings);
    assert_eq!(end.cost_of_a_request(0, 1, &[1, 2]), [6, 0]);
    assert_eq!(end.cost_of_a_firing(50), [12, 0]);
    assert_eq!(end.cost_of_a_firing(110), [12, 1], "the bound itself");
}

#[test]
fn a_tidok_while_held_on_is_counted() {
    let mut end = end();
    end.request(0, PEER, 2, 0, &[]);
    assert_eq!(end.cost_of(1, &[0x18, 0x80, 5]), [4, 0]);
    assert_eq!(end.cost_of(2, &[0x1C, 0x80, 5]), [7, 0]);
    assert_eq!((end.cost_of_a_firing(162), end.sent()), ([10, 0], vec![0x1D, 0, 5]));
}

#[test]
fn what_concerns_no_initiators_record_tells_no_cost() {
    let mut end = end();
    assert_eq!(end.cost_of_a_request(0, 0, &[1, 2]), [0, 0], "class 0");
    end.request(0, PEER, 2, 0, &[1]);
    for pdu in [&[0x18][..], &[0x18, 0x80], &[0x0E, 0x80, 6, 2], &[0x16, 0, 6], &[0x18, 0x80, 9], &[0x1C, 0x80, 9]] {
        assert_eq!(end.cost_of(1, pdu), [0, 0], "{pdu:02X?}");
    }
    assert_eq!((end.timer(1).row, end.cost()), (Row::TimerNoneDue, [0, 0]));
    assert_eq!(end.receive(1, 8, &[0x18, 0x80, 6]).row, Row::NoRecordAck);
    assert_eq!(end.cost(), [0, 0], "another peer");
}

/// Events for TID 5 of peer 9: a firing, PDUs of each type, and the user's.
fn events() -> Vec<fn(&mut End, [u64; 3]) -> Said> {
    fn pdu(end: &mut End, name: [u64; 3], first: u8, rest: &[u8]) -> Said {
        let top = if name[0] == INITIATOR { 0x80 } else { 0 };
        end.receive(1, 9, &[&[first, top, 5], rest].concat())
    }
    vec![
        |end, _| end.timer(1),
        |end, name| end.fire(1, name),
        |end, name| pdu(end, name, 0x18, &[]),
        |end, name| pdu(end, name, 0x1D, &[]),
        |end, name| pdu(end, name, 0x17, &[]),
        |end, name| pdu(end, name, 0x14, &[]),
        |end, name| pdu(end, name, 0x0F, &[2]),
        |end, name| pdu(end, name, 0x20, &[1]),
        |end, name| pdu(end, name, 0x38, &[0]),
        |end, name| pdu(end, name, 0x00, &[]),
        |end, name| end.answer(1, name, &[]),
        |end, name| end.result(1, name, &[]),
        |end, name| end.abort(1, name, 3),
    ]
}

/// A due record of this state whose RCR may still be counted or not, and which has cost so much.
fn due(state: u8, rcr: u8, cost: u32) -> End {
    let mut end = End::of_the_reading(1, 5);
    let record = end.record(0);
    record.copy_from_slice(&live(state));
    record[4] = rcr;
    record[8] = 1;
    record[25..29].copy_from_slice(&cost.to_le_bytes());
    end
}

#[test]
fn every_event_of_an_initiators_record_tells_its_cost_and_whether_it_ended() {
    let (mut told, mut ended) = (0, 0);
    for (state, rcr) in [(1, 0), (1, 2), (2, 0), (2, 2), (3, 0), (4, 0)] {
        for (at, event) in events().into_iter().enumerate() {
            let mut end = due(state, rcr, 1_000);
            // A refused call tells nothing, and an Invoke the wrong way names nobody.
            if event(&mut end, [INITIATOR, 9, 5]).number != 0 || at == 6 {
                continue;
            }
            let counted = if matches!(end.sent()[..], [0x0F | 0x1C | 0x1D, ..]) { end.sent().len() as u64 } else { 0 };
            let is_free = end.record(0) == [0; 176];
            assert_eq!(end.cost(), [1_000 + counted, is_free.into()], "state {state}, RCR {rcr}, event {at}");
            told += 1;
            ended += u32::from(is_free);
        }
    }
    assert_eq!((told, ended), (61, 28));
}

#[test]
fn no_event_of_a_responders_record_tells_a_cost_or_leaves_one() {
    for state in 5..=11 {
        for (at, event) in events().into_iter().enumerate() {
            let mut end = due(state, 0, 0);
            if event(&mut end, [RESPONDER, 9, 5]).number == 0 {
                assert_eq!((end.cost(), end.cost_kept(0)), ([0, 0], [0; 4]), "state {state}, event {at}");
            }
        }
    }
}

#[test]
fn on_a_made_up_table_the_sum_stops_at_the_bound() {
    for (cost, expected) in [(3_080, 3_084), (3_081, 3_084), (3_084, 3_084), (3_079, 3_083)] {
        let mut end = due(2, 0, cost);
        assert_eq!(end.cost_of_a_firing(1), [expected, 0]);
        assert_eq!(end.cost_kept(0), (expected as u32).to_le_bytes());
    }
    let mut end = due(1, 1, 3_083);
    assert_eq!((end.receive(1, 9, &[0x1C, 0x80, 5]).number, end.cost()), (0, [3_084, 0]));
}

#[test]
fn a_record_from_before_the_count_goes_on_from_0() {
    let mut end = due(1, 1, 0);
    assert_eq!(end.cost_of_a_firing(1), [4, 0]);
    let mut end = due(4, 0, 0);
    assert_eq!(end.cost_of_a_firing(1), [0, 1]);
}

/// Numbers that look random, from a seed.
struct Draw(u64);

impl Draw {
    fn below(&mut self, bound: u64) -> u64 {
        self.0 = self.0.wrapping_mul(6_364_136_223_846_793_005).wrapping_add(1_442_695_040_888_963_407);
        (self.0 >> 33) % bound
    }
}

/// What the history says of a request: the octets sent, and whether its result, confirmation of class 1 or abort was there.
#[derive(Clone, Copy, Default)]
struct History {
    class: u64,
    octets: u64,
    is_over: bool,
}

impl History {
    /// Adds a call that concerned the request.
    fn add(&mut self, end: &End) {
        let sent = end.sent();
        let is_abort = matches!(sent[..], [0x20 | 0x21, ..]);
        if !self.is_over && !is_abort {
            self.octets += sent.len() as u64;
        }
        let ends = |kind| kind == RESULT || kind == ABORT || kind == CONFIRMATION && self.class == 1;
        self.is_over |= end.shown().iter().any(|shown| ends(shown.kind)) || is_abort;
    }
}

/// One call about the request TID 5 of peer 7, or a PDU that names nobody.
fn call(draw: &mut Draw, end: &mut End, now: u64) -> Said {
    let first = [0x18, 0x19, 0x1C, 0x1D, 0x16, 0x17, 0x14, 0x15][draw.below(8) as usize];
    match draw.below(40) {
        0 => end.receive(now, PEER, &[0x20, 0x80, 5, 1]),
        1 => end.abort(now, MINE, 1),
        2..=4 => end.answer(now, MINE, &[1, 2, 3]),
        5 => end.receive(now, PEER, &[0x38, 0x80, 5, 0]),
        6 => end.receive(now, PEER, &[first, 0x80]),
        7..=15 => end.receive(now, PEER, &[first, 0x80, 5]),
        _ => end.fire(now, MINE),
    }
}

/// Plays a request of so many octets to its end, and compares what is told with the history.
fn play(draw: &mut Draw, settings: &[u64], length: usize) {
    let mut end = End::with(1, 5, settings);
    let (mut now, class) = (0, 1 + draw.below(2));
    let mut history = History { class, ..History::default() };
    assert_eq!(end.request(now, PEER, class, draw.below(2), &vec![0xAB; length]).number, 0);
    history.add(&end);
    assert_eq!(end.cost(), [4 + length as u64, 0]);
    while end.record(0)[0] != 0 {
        now += draw.below(600);
        let said = call(draw, &mut end, now);
        if said.number == 0 && said.row != Row::ShortPdu {
            history.add(&end);
            assert_eq!(end.cost(), [history.octets, (end.record(0)[0] == 0).into()], "{said:?}");
        }
        assert!(history.octets <= (1 + settings[0]) * (4 + length as u64));
    }
}

#[test]
fn the_cost_is_the_sum_of_the_history_and_within_the_bound() {
    let mut draw = Draw(1);
    for rcr_max in [0, 1, 2, 8] {
        for round in 0..400 {
            let settings = settings(rcr_max, 2);
            let length = [0, 1, 9, 1_024][round % 4];
            play(&mut draw, if round % 8 < 4 { settings } else { limited(settings, 700) }.as_slice(), length);
        }
    }
}

#[test]
fn invokes_alone_attain_the_bound() {
    for (rcr_max, length) in [(0, 0), (0, 1_024), (3, 7), (8, 1_024)] {
        let mut end = End::with(1, 5, &settings(rcr_max, 0));
        end.request(0, PEER, 1, 0, &vec![1; length]);
        for time in 1..=rcr_max + 1 {
            assert_eq!(end.timer(10_000 * time).number, 0);
        }
        assert_eq!(end.cost(), [(1 + rcr_max) * (4 + length as u64), 1]);
    }
}
