//! Damaged tables that are salvaged, and what they then do.

mod common;

use common::{initiator, responder, table, PEER, SETTINGS};
use wtp::ffi::{self, SALVAGED};
use wtp::{Damage, Refused, Salvaged, Table};

const HEADER: usize = 624;
const RECORD: usize = 176;

/// Requests of class 2 with TID 5 and 6 at places 0 and 1, and an Invoke with TID 5 that was shown at place 2.
fn three_live() -> Table {
    let mut end = table(4);
    end.request(10, PEER, 2, false, b"one").unwrap();
    end.request(10, PEER, 2, false, b"two").unwrap();
    end.receive(10, PEER, &[0x0E, 0x00, 0x05, 0x02]).unwrap();
    end.receive(10, PEER, &[0x1C, 0x00, 0x05]).unwrap();
    end
}

fn damaged(whole: &Table, damage: impl FnOnce(&mut [u8])) -> Table {
    let (table, store) = whole.octets();
    let mut octets = table.to_vec();
    damage(&mut octets);
    Table::kept(octets, store.to_vec())
}

fn record(place: usize) -> std::ops::Range<usize> {
    HEADER + RECORD * place..HEADER + RECORD * (place + 1)
}

#[test]
fn a_well_formed_table_comes_back_as_it_was() {
    for whole in [table(1), table(48), three_live()] {
        let mut same = whole.clone();
        assert_eq!(same.salvage(), Ok(vec![]));
        assert!(same == whole);
    }
}

#[test]
fn a_damaged_record_is_freed_and_the_others_go_on() {
    let mut end = damaged(&three_live(), |table| table[record(0)].fill(0xFF));
    assert_eq!(end.timer(10), Err(Refused::WrongSize));
    assert_eq!(end.salvage(), Ok(vec![Salvaged { place: 0, damage: Damage::OutOfRange }]));
    assert_eq!(end.abort(10, initiator(5), 1), Err(Refused::NoRecord));
    let again = end.fire(5_010, initiator(6)).unwrap();
    assert_eq!(again.sent.as_deref(), Some(&b"\x0F\x00\x06\x02two"[..]), "its cell stayed");
    assert_eq!(end.result(5_010, responder(5), b"r").unwrap().sent.as_deref(), Some(&b"\x16\x80\x05r"[..]));
    assert_eq!(end.salvage(), Ok(vec![]));
}

#[test]
fn of_two_of_one_name_the_lower_place_stays() {
    let mut end = damaged(&three_live(), |table| {
        table.copy_within(record(1), record(0).start);
        table[record(3).end - 1] = 1;
    });
    let salvaged = end.salvage().unwrap();
    let expected = [Salvaged { place: 1, damage: Damage::SameName }, Salvaged { place: 3, damage: Damage::FreeNotZero }];
    assert_eq!(salvaged, expected);
    assert!(end.abort(10, initiator(6), 1).is_ok(), "place 0 has the other's name now");
    assert_eq!(expected[0].damage.to_string(), "it shared role, peer and TID with a live record of a lower place (reason 3)");
}

#[test]
fn number_15_changes_nothing_whatever_the_records_hold() {
    for at in [7, 10, 15, 98, HEADER - 1] {
        let mut end = damaged(&three_live(), |table| {
            table[at] = 0xFF;
            table[record(2)].fill(0xFF);
        });
        let before = end.clone();
        assert_eq!(end.salvage(), Err(Refused::WrongHeader), "octet {at}");
        assert!(end == before, "octet {at}: a buffer changed");
    }
    assert_eq!(Refused::WrongHeader.number(), 15);
}

#[test]
fn number_1_for_a_size_that_is_none_or_fewer_than_97_words() {
    for size in [0, 1, 623, 624, 799, 801, 9_073, 9_248] {
        assert_eq!(Table::kept(vec![0xFF; size], vec![]).salvage(), Err(Refused::WrongSize), "{size} octets");
    }
    let (mut octets, mut list) = (table(1).octets().0.to_vec(), [7; SALVAGED + 1]);
    assert_eq!(ffi::salvage(&mut octets, &mut list[..SALVAGED - 1]), 1);
    assert_eq!(list, [7; SALVAGED + 1]);
    assert_eq!(ffi::salvage(&mut octets, &mut list), 0);
    assert!(list[..SALVAGED] == [0; SALVAGED] && list[SALVAGED] == 7);
}

#[test]
fn one_damaged_octet_is_salvaged_unless_it_is_in_the_header() {
    let whole = three_live();
    for at in 0..whole.octets().0.len() {
        let mut end = damaged(&whole, |table| table[at] ^= 0xFF);
        match end.salvage() {
            Ok(list) => assert!(list.len() <= 1 && end.deadline().is_ok(), "octet {at}: {list:?}"),
            Err(why) => assert!(why == Refused::WrongHeader && at < HEADER, "octet {at}: {why}"),
        }
    }
    assert_eq!(Table::fresh(1, &SETTINGS, 5).unwrap().salvage(), Ok(vec![]));
}

#[test]
fn any_octets_are_borne_and_any_records_are_salvaged() {
    let mut random = kit::Random::new(1);
    let header = three_live().octets().0[..HEADER].to_vec();
    for records in [1, 2, 48] {
        for _ in 0..50 {
            let any = random.octets(HEADER + RECORD * records);
            let before = Table::kept(any.clone(), vec![]);
            let mut end = before.clone();
            assert_eq!(end.salvage(), Err(Refused::WrongHeader));
            assert!(end == before);
            let mut end = Table::kept([&header, &any[HEADER..]].concat(), vec![]);
            let list = end.salvage().unwrap();
            assert!(list.len() <= records && end.octets().0[..HEADER] == header && end.deadline().is_ok(), "{list:?}");
        }
    }
}
