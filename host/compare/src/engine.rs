//! Draws one call of the engine, aimed at the table as it is.

use crate::aim;
use crate::calls::{Call, Kind};
use crate::pdus;
use crate::view::View;
use kit::Random;

/// A PDU that the engine sent, and the peer to which it goes.
#[derive(Default)]
pub struct Sent {
    pub peer: u64,
    pub pdu: Vec<u8>,
}

/// Fills in the call's kind and octets.
pub fn draw(random: &mut Random, view: View, sent: &Sent, call: &mut Call) {
    call.octets.clear();
    call.words.clear();
    let now = aim::time(random, view);
    call.kind = match random.below(100) {
        0..=47 => receive(random, view, sent, now, &mut call.octets),
        48..=59 => Kind::Timer { now: if random.percent(60) { aim::about_earliest(random, view) } else { now } },
        60..=62 => Kind::Deadline,
        63..=69 => fire(random, view, now),
        70..=81 => request(random, now, &mut call.octets),
        82..=89 => answer(random, view, now, &mut call.octets),
        90..=97 => result(random, view, now, &mut call.octets),
        _ => Kind::Abort { now, of: aim::name(random, view), reason: random.octet() },
    };
}

/// A live record mostly, about its own deadline mostly: so one that isn't the earliest is fired too.
fn fire(random: &mut Random, view: View, now: u64) -> Kind {
    let live = view.live(random);
    let deadline = live.map(|live| live.deadline).filter(|deadline| *deadline != 0 && random.percent(80));
    let now = deadline.map_or(now, |deadline| aim::about(random, view, deadline));
    Kind::Fire { now, of: aim::name_of(random, live) }
}

fn request(random: &mut Random, now: u64, data: &mut Vec<u8>) -> Kind {
    append_data(random, data);
    let class = match random.below(30) {
        0 => random.of(&[3, 4, 256, 258, 1 << 32, u64::MAX]),
        1 | 2 => 0,
        wish => 1 + wish % 2,
    };
    Kind::Request { now, peer: aim::peer(random), class, user_ack: random.of(&[0, 0, 0, 0, 1, 1, 2, 256, 1 << 32, u64::MAX]) }
}

fn answer(random: &mut Random, view: View, now: u64, exit: &mut Vec<u8>) -> Kind {
    let length = random.of(&[0, 0, 0, 0, 0, 0, 0, 0, 0, 1, 1, 2, 3, 3, 4, 4, 127, 128, 128, 129, 255, 256]);
    random.append(exit, length);
    Kind::Answer { now, of: aim::name(random, view) }
}

fn result(random: &mut Random, view: View, now: u64, data: &mut Vec<u8>) -> Kind {
    append_data(random, data);
    Kind::Result { now, of: aim::name(random, view) }
}

/// Data of a primitive: short mostly, sometimes about as long as may be.
fn append_data(random: &mut Random, data: &mut Vec<u8>) {
    let length = match random.below(16) {
        0 => random.of(&[1023, 1024, 1024, 1025, 1500]),
        1..=4 => 0,
        _ => random.place(12),
    };
    random.append(data, length);
}

/// A PDU built for the purpose, or the one that was sent last, as if this table were its own peer.
fn receive(random: &mut Random, view: View, sent: &Sent, now: u64, pdu: &mut Vec<u8>) -> Kind {
    let peer = if random.percent(15) && !sent.pdu.is_empty() {
        pdu.extend_from_slice(&sent.pdu);
        sent.peer
    } else {
        let source = aim::source(random, view);
        pdus::build(random, source.kind, source.tid, pdu);
        source.peer
    };
    if random.percent(5) {
        pdus::damage(random, pdu);
    }
    Kind::Receive { now, peer }
}
