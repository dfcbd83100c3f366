//! Aims calls at what lives in the table: times about deadlines, names of live records, TIDs about cached ones.

use crate::calls::Name;
use crate::view::{Live, View};
use kit::layout::{LAST_TIME, LONGEST};
use kit::Random;

/// Where a PDU seems to come from: its peer, its TID of 16 bits, and a type that suits.
pub struct Source {
    pub peer: u64,
    pub tid: u16,
    pub kind: u8,
}

const TOP: u64 = 0x8000;
const INVOKE: u8 = 1;

/// A time: a small step mostly, often about the earliest deadline, seldom wrong.
pub fn time(random: &mut Random, view: View) -> u64 {
    let clock = view.clock();
    match random.below(1000) {
        0..=549 => clock.saturating_add(random.below(3)),
        550..=699 => clock.saturating_add(random.below(60)),
        700..=979 => about_earliest(random, view),
        980..=989 => clock.wrapping_sub(1 + random.below(3)),
        990..=993 => clock.saturating_add(LONGEST + random.below(3)),
        994..=996 => random.of(&[LAST_TIME + 1, u64::MAX, 1 << 63]),
        997 => LAST_TIME,
        _ => 0,
    }
}

/// Just before, at or just after the earliest deadline, where that is still to come.
pub fn about_earliest(random: &mut Random, view: View) -> u64 {
    view.earliest().map_or(view.clock(), |deadline| about(random, view, deadline))
}

/// Just before, at or just after a deadline, where that is still to come.
pub fn about(random: &mut Random, view: View, deadline: u64) -> u64 {
    deadline.wrapping_sub(1).saturating_add(random.below(3)).max(view.clock())
}

/// The name of a live record mostly, sometimes with one part changed, in range or not.
pub fn name(random: &mut Random, view: View) -> Name {
    let live = view.live(random);
    name_of(random, live)
}

/// The name of this live record mostly, sometimes with one part changed, in range or not.
pub fn name_of(random: &mut Random, live: Option<Live>) -> Name {
    let mut name = match live {
        Some(live) if random.percent(92) => Name { role: live.role(), peer: live.peer, tid: live.tid },
        _ => Name { role: random.below(2), peer: random.below(3), tid: random.below(8) },
    };
    if random.percent(12) {
        change_part(random, &mut name);
    }
    name
}

fn change_part(random: &mut Random, name: &mut Name) {
    match random.below(3) {
        0 => name.role = random.of(&[name.role ^ 1, name.role + 2, name.role + 256, name.role + (1 << 32), u64::MAX]),
        1 => name.peer = random.of(&[name.peer ^ 1, 255, 256, name.peer + 256, name.peer + (1 << 32), u64::MAX]),
        _ => name.tid = random.of(&[name.tid ^ 1, name.tid | TOP, name.tid + 65_536, name.tid + (1 << 32), u64::MAX]),
    }
}

/// A peer for a request or a new Invoke: one of a few, so that TIDs meet, sometimes any, seldom out of range.
pub fn peer(random: &mut Random) -> u64 {
    match random.below(50) {
        0 => random.of(&[256, 257, 1 << 32, u64::MAX]),
        1 => random.below(256),
        2 | 3 => 255,
        _ => random.below(3),
    }
}

/// Aims a PDU at a live record mostly, else at a cached TID or at nothing.
pub fn source(random: &mut Random, view: View) -> Source {
    match view.live(random) {
        Some(live) if random.percent(75) => {
            let towards_initiator = (live.role() == 0) != random.percent(6);
            let top = if towards_initiator { TOP } else { 0 };
            Source { peer: other_peer_seldom(random, live.peer), tid: (live.tid | top) as u16, kind: kind(random, top != 0) }
        }
        _ => opening(random, view),
    }
}

fn other_peer_seldom(random: &mut Random, live: u64) -> u64 {
    if random.percent(97) {
        live
    } else {
        peer(random)
    }
}

/// A type that the receiver has rows for mostly; 0 and 8 to 15 are no types.
fn kind(random: &mut Random, towards_initiator: bool) -> u8 {
    match random.below(100) {
        0..=4 => random.below(16) as u8,
        5..=13 => random.of(&[5, 6, 7]),
        14..=20 => 4,
        21..=60 => 3,
        _ if towards_initiator != random.percent(8) => 2,
        _ => INVOKE,
    }
}

/// A PDU without a record: an Invoke mostly, its TID about the cached one of its peer.
fn opening(random: &mut Random, view: View) -> Source {
    let peer = peer(random);
    let distance = random.of(&[0, 1, 1, 1, 2, 16_383, 16_384, 32_767]);
    let tid = match view.last_tid(peer) {
        Some(last) if random.percent(80) => last.wrapping_add(distance) % TOP,
        _ if random.percent(50) => view.gen_tid() % TOP,
        _ => random.of(&[0, 1, 2, 3, 16_384, 32_767]),
    };
    let kind = if random.percent(75) { INVOKE } else { random.of(&[0, 2, 3, 3, 3, 4, 5, 6, 7, 9, 15]) };
    let top = if random.percent(if kind == INVOKE { 5 } else { 60 }) { TOP } else { 0 };
    Source { peer, tid: (tid | top) as u16, kind }
}

#[cfg(test)]
mod tests {
    use super::*;
    use kit::layout;

    #[test]
    fn a_pdu_for_a_lone_initiator_record_names_it_more_often_than_not() {
        let mut table = vec![0; layout::table_bytes(1)];
        layout::STATE.of_record(0).set(&mut table, 2);
        layout::PEER.of_record(0).set(&mut table, 200);
        layout::TID.of_record(0).set(&mut table, 77);
        let view = View::new(&table, 1);
        let mut random = Random::new(1);
        let named =
            (0..1000).map(|_| source(&mut random, view)).filter(|source| source.peer == 200 && source.tid == 0x804D).count();
        assert!(named > 500, "{named}");
    }

    #[test]
    fn times_about_a_deadline_are_before_it_at_it_and_after_it() {
        let mut table = vec![0; layout::table_bytes(1)];
        layout::STATE.of_record(0).set(&mut table, 1);
        layout::DEADLINE.of_record(0).set(&mut table, 50);
        let view = View::new(&table, 1);
        let mut random = Random::new(1);
        let times: Vec<u64> = (0..50).map(|_| about_earliest(&mut random, view)).collect();
        assert!([49, 50, 51].iter().all(|time| times.contains(time)));
        assert!(times.iter().all(|time| (49..=51).contains(time)));
    }

    #[test]
    fn a_table_of_any_octets_can_be_aimed_at() {
        let table = vec![0xFF; layout::table_bytes(1)];
        let view = View::new(&table, 1);
        let mut random = Random::new(1);
        for _ in 0..2000 {
            time(&mut random, view);
            name(&mut random, view);
            source(&mut random, view);
        }
    }
}
