//! What a table holds, as far as calls are aimed at it.

use kit::layout::{self, Field};
use kit::Random;

#[derive(Clone, Copy, Debug, PartialEq, Eq)]
pub struct Live {
    pub state: u64,
    pub peer: u64,
    pub tid: u64,
    pub deadline: u64,
}

/// The octets of a table, of which the first so many records are looked at.
#[derive(Clone, Copy)]
pub struct View<'a> {
    table: &'a [u8],
    records: usize,
}

impl Live {
    /// 0 initiator, 1 responder.
    pub fn role(self) -> u64 {
        u64::from(self.state > layout::INITIATOR_STATES)
    }
}

impl<'a> View<'a> {
    pub fn new(table: &'a [u8], records: usize) -> View<'a> {
        View { table, records }
    }

    pub fn get(self, field: Field) -> u64 {
        field.get(self.table)
    }

    pub fn clock(self) -> u64 {
        self.get(layout::CLOCK)
    }

    pub fn gen_tid(self) -> u64 {
        self.get(layout::GEN_TID)
    }

    /// The cached LastTID of a peer; any peer is taken modulo 256.
    pub fn last_tid(self, peer: u64) -> Option<u64> {
        self.get(layout::CACHED.moved(2 * (peer % 256) as usize)).checked_sub(1)
    }

    pub fn record(self, place: usize) -> Option<Live> {
        let state = self.get(layout::STATE.of_record(place));
        (state != 0).then(|| Live {
            state,
            peer: self.get(layout::PEER.of_record(place)),
            tid: self.get(layout::TID.of_record(place)),
            deadline: self.get(layout::DEADLINE.of_record(place)),
        })
    }

    /// A live record: the first one from a random place on.
    pub fn live(self, random: &mut Random) -> Option<Live> {
        let start = random.place(self.records);
        (0..self.records).find_map(|step| self.record((start + step) % self.records))
    }

    /// The earliest deadline of a live record.
    pub fn earliest(self) -> Option<u64> {
        (0..self.records).filter_map(|place| self.record(place)).map(|live| live.deadline).filter(|deadline| *deadline != 0).min()
    }
}

#[cfg(test)]
mod tests {
    use super::*;

    #[test]
    fn a_live_record_is_found_wherever_the_search_starts() {
        let mut table = vec![0; layout::table_bytes(4)];
        layout::STATE.of_record(2).set(&mut table, 10);
        layout::TID.of_record(2).set(&mut table, 7);
        layout::DEADLINE.of_record(2).set(&mut table, 99);
        let view = View::new(&table, 4);
        let expected = Live { state: 10, peer: 0, tid: 7, deadline: 99 };
        let mut random = Random::new(1);
        (0..20).for_each(|_| assert_eq!(view.live(&mut random), Some(expected)));
        assert_eq!(view.earliest(), Some(99));
        assert_eq!(expected.role(), 1);
    }

    #[test]
    fn a_fresh_table_has_no_live_record_no_deadline_and_no_cached_tid() {
        let table = vec![0; layout::table_bytes(1)];
        let view = View::new(&table, 1);
        assert_eq!(view.live(&mut Random::new(1)), None);
        assert_eq!(view.earliest(), None);
        assert_eq!(view.last_tid(300), None);
    }
}
