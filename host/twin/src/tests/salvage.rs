//! Damaged tables that are salvaged (document 02, L12).

use super::tables::live;
use super::*;

/// The reading's example: initiators with TID 5 and 6, responders with TID 5 and 6, two free places.
fn six_places() -> End {
    let mut end = End::of_the_reading(6, 5);
    end.request(10, 7, 2, 0, &[1]);
    end.request(10, 7, 2, 0, &[2]);
    for tid in [5, 6] {
        end.receive(10, 7, &[0x0E, 0, tid, 2]);
    }
    end
}

impl End {
    fn copy_record(&mut self, from: usize, to: usize) {
        let octets = self.record(from).to_vec();
        self.record(to).copy_from_slice(&octets);
    }
}

/// What salvage lists after the damage, where it leaves all other places as they were.
fn salvaged(damage: impl FnOnce(&mut End)) -> Vec<[u64; 2]> {
    let mut end = six_places();
    damage(&mut end);
    let mut before = end.clone();
    let list = end.salvage().unwrap();
    for place in 0..6 {
        let freed = list.iter().any(|[freed, _]| *freed == place as u64);
        let expected = if freed { [0; 176].to_vec() } else { before.record(place).to_vec() };
        assert_eq!(end.record(place), expected, "place {place}");
    }
    assert_eq!(end.store, before.store);
    list
}

#[test]
fn a_well_formed_table_comes_back_as_it_was() {
    assert_eq!(salvaged(|_| ()), [[0; 2]; 0]);
    assert_eq!(End::new(1, 0).salvage(), Ok(vec![]));
    assert_eq!(End::new(48, 0).salvage(), Ok(vec![]));
}

#[test]
fn the_examples_of_the_reading() {
    let copies = salvaged(|end| {
        end.copy_record(1, 4);
        end.copy_record(1, 5);
    });
    assert_eq!(copies, [[4, 3], [5, 3]]);
    assert_eq!(salvaged(|end| end.copy_record(3, 0)), [[3, 3]], "the lower place stays, damaged or not");
    let freed_before = salvaged(|end| {
        end.copy_record(2, 5);
        end.record(2).fill(0xFF);
    });
    assert_eq!(freed_before, [[2, 1]], "a record that was freed doesn't count");
    let each = salvaged(|end| {
        end.copy_record(1, 4);
        end.record(0).fill(0xFF);
        end.record(5)[175] = 1;
    });
    assert_eq!(each, [[0, 1], [4, 3], [5, 2]]);
}

#[test]
fn a_counter_over_a_lowered_maximum_is_reason_1_and_not_number_15() {
    let mut end = six_places();
    end.record(3)[4] = 2;
    assert_eq!(end.salvage(), Ok(vec![]));
    end.table[10] = 1;
    assert_eq!(end.salvage(), Ok(vec![[3, 1]]));
}

#[test]
fn a_cost_out_of_range_is_reason_1_and_one_in_range_stays_and_is_told_on() {
    let with_cost = |place: usize, cost: u32| {
        let mut end = six_places();
        end.record(place)[25..29].copy_from_slice(&cost.to_le_bytes());
        let list = end.salvage();
        (end, list)
    };
    assert_eq!(with_cost(0, 3_085).1, Ok(vec![[0, 1]]));
    assert_eq!(with_cost(2, 1).1, Ok(vec![[2, 1]]), "a responder's is 0");
    let (mut end, list) = with_cost(0, 3_000);
    assert_eq!(list, Ok(vec![]));
    assert_eq!((end.timer(160).number, end.cost()), (0, [3_005, 0]));
    end.table[10] = 1;
    assert_eq!(end.salvage(), Ok(vec![[0, 1]]), "by the table's own RCR_MAX");
}

#[test]
fn whatever_a_place_holds_its_first_reason_is_told() {
    for place in 0..6 {
        for octets in [[0xFF; 176], [12; 176], [1; 176]] {
            assert_eq!(salvaged(|end| end.record(place).copy_from_slice(&octets)), [[place as u64, 1]]);
        }
        for at in 1..176 {
            let list = salvaged(|end| {
                end.record(place).fill(0);
                end.record(place)[at] = 1;
            });
            assert_eq!(list, [[place as u64, 2]], "octet {at}");
        }
    }
}

#[test]
fn the_other_role_is_another_name_and_so_are_another_peer_and_another_tid() {
    for (state, peer, tid, kept) in [(2, 9, 5, false), (1, 9, 5, false), (8, 9, 5, true), (2, 8, 5, true), (2, 9, 6, true)] {
        let mut end = End::new(2, 0);
        end.record(0).copy_from_slice(&live(2));
        end.record(1)[..4].copy_from_slice(&[state, peer, tid, 0]);
        assert_eq!(end.salvage(), Ok(if kept { vec![] } else { vec![[1, 3]] }));
    }
}

#[test]
fn a_full_table_of_one_name_keeps_its_lowest_place() {
    let mut end = End::new(48, 0);
    (0..48).for_each(|place| end.record(place).copy_from_slice(&live(2)));
    let list = end.salvage().unwrap();
    assert!(list.into_iter().eq((1..48).map(|place| [place, 3])));
}

#[test]
fn the_header_is_judged_by_itself_and_first() {
    for at in [7, 9, 10, 11, 15, 95, 96, 97, 98, 111, 623] {
        let mut end = six_places();
        end.record(0).fill(0xFF);
        end.table[at] = 0xFF;
        assert_eq!(end.salvage(), Err(15), "octet {at}");
    }
}

#[test]
fn sizes_are_judged_before_the_header() {
    for octets in [0, 623, 624, 799, 801, 9073, 9248] {
        let (mut table, mut list) = (vec![0xFF; octets], [7; 97]);
        assert_eq!(crate::salvage(&mut table, &mut list).number, 1, "{octets} octets");
        assert!(table == vec![0xFF; octets] && list == [7; 97]);
    }
    let (mut table, mut list) = (vec![0xFF; 800], [7; 96]);
    assert_eq!((crate::salvage(&mut table, &mut list).number, list), (1, [7; 96]));
}

#[test]
fn a_salvaged_table_goes_on() {
    let mut end = six_places();
    end.record(1).fill(0xFF);
    assert_eq!(end.request(20, 7, 2, 0, &[3]).number, 1);
    assert_eq!(end.salvage(), Ok(vec![[1, 1]]));
    assert_eq!(end.request(20, 7, 2, 0, &[3]).number, 0);
    assert_eq!((end.answer[2], end.record(1)[..4].to_vec()), (7, vec![2, 7, 7, 0]), "the place is used again");
    assert_eq!(end.fire(160, [INITIATOR, 7, 5]).number, 0);
    assert_eq!(end.sent(), [0x0F, 0, 5, 0x22, 1]);
}
