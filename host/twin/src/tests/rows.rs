//! Every row is reached: each state with each event under each condition, then what names no record, and the refusals.

use super::tables::live;
use super::*;
use crate::Row;
use std::collections::BTreeSet;

const PEER: u64 = 9;

/// A table whose one record is in a state and due, under conditions: all flags clear or set, counters at 0 or at their
/// maxima with exit information kept, nothing cached or the record's own TID, no waiting limit in force or one.
fn ends_in(state: u8) -> Vec<End> {
    let mut ends = Vec::new();
    for conditions in 0..16 {
        let [flags, counters, cached, limited] = [1, 2, 4, 8].map(|bit| conditions & bit != 0);
        let mut end = End::new(1, 0);
        let record = end.record(0);
        record.copy_from_slice(&live(state));
        record[6] = match (flags, state) {
            (false, _) => 0,
            (true, 1..=4) => 31,
            (true, _) => 15,
        };
        record[8] = 1;
        if counters {
            record[4..6].copy_from_slice(&[2, 1]);
            record[7] = 3;
        }
        record[20] = limited.into();
        if cached {
            end.cache(PEER as usize, 5);
        }
        ends.push(end);
    }
    ends
}

/// PDUs of every type with and without their flags, TID 5, in both directions.
fn pdus() -> Vec<Vec<u8>> {
    let mut pdus = vec![vec![0x0E], vec![0x0E, 0]];
    for top in [0, 0x80] {
        for first in [0x00, 0x28, 0x30, 0x38, 0x20] {
            pdus.push(vec![first, top, 5, 0]);
        }
        for first in [0x10, 0x11, 0x12, 0x13, 0x18, 0x19, 0x1C, 0x1D] {
            pdus.push(vec![first, top, 5]);
        }
        for fourth in [0x02, 0x22, 0x42, 0, 0x40, 3] {
            pdus.extend([0x0C, 0x0E, 0x0F].map(|first| vec![first, top, 5, fourth]));
        }
    }
    pdus
}

fn reach_records(reached: &mut BTreeSet<Row>) {
    let pdus = pdus();
    for state in 1..=11 {
        let name = [u64::from(state > 4), PEER, 5];
        for end in ends_in(state) {
            reached.extend(pdus.iter().map(|pdu| end.clone().receive(1, PEER, pdu).row));
            reached.insert(end.clone().timer(1).row);
            reached.insert(end.clone().fire(0, name).row);
            reached.insert(crate::deadline(&end.table, &mut [0; 5]).row);
            reached.insert(end.clone().answer(1, name, &[]).row);
            reached.insert(end.clone().answer(1, name, &[1]).row);
            reached.insert(end.clone().result(1, name, &[1]).row);
            reached.insert(end.clone().abort(1, name, 1).row);
        }
    }
}

fn reach_without_record(reached: &mut BTreeSet<Row>) {
    let empty = End::new(1, 0);
    let mut cached = empty.clone();
    cached.cache(PEER as usize, 4);
    let mut old = empty.clone();
    old.cache(PEER as usize, 5);
    let mut full = empty.clone();
    full.request(0, PEER, 1, 0, &[]);
    for end in [empty, cached, old, full] {
        for mut pdu in pdus() {
            reached.insert(end.clone().receive(1, PEER, &pdu).row);
            pdu.resize(4 + 1025, 0);
            reached.insert(end.clone().receive(1, PEER, &pdu).row);
        }
        reach_requests(&end, reached);
        reached.insert(end.clone().timer(1).row);
        reached.insert(crate::deadline(&end.table, &mut [0; 5]).row);
    }
}

fn reach_requests(end: &End, reached: &mut BTreeSet<Row>) {
    for (gen_tid, due) in [(7_u16, 0), (7, 1), (32_767, 0), (32_767, 1)] {
        let mut end = end.clone();
        end.table[8..10].copy_from_slice(&gen_tid.to_le_bytes());
        end.table[97] = due;
        reached.extend((0..3).map(|class| end.clone().request(1, PEER, class, 0, &[]).row));
    }
}

fn reach_refusals(reached: &mut BTreeSet<Row>) {
    let good = End::new(1, 0);
    let mut damaged = good.clone();
    damaged.table[10] = 9;
    for (end, now, peer) in [(&damaged, 0, 0), (&good, u64::MAX, 0), (&good, 0, 256), (&good, 0, 0)] {
        let name = [RESPONDER, peer, 5];
        for length in [0, 2000] {
            let octets = vec![0; length];
            reached.insert(end.clone().request(now, peer, 3, 0, &octets).row);
            reached.insert(end.clone().answer(now, name, &octets).row);
            reached.insert(end.clone().result(now, name, &octets).row);
            reached.insert(end.clone().receive(now, peer, &octets).row);
        }
        reached.insert(end.clone().abort(now, name, 0).row);
        reached.insert(end.clone().timer(now).row);
        reached.insert(end.clone().fire(now, name).row);
        reached.insert(crate::deadline(&end.table, &mut [0; 5]).row);
    }
    let mut held_on = good.clone();
    held_on.record(0).copy_from_slice(&live(2));
    reached.insert(held_on.fire(0, [INITIATOR, PEER, 5]).row);
    let mut taken = good.clone();
    taken.request(0, PEER, 1, 0, &[]);
    reached.insert(taken.clone().request(0, PEER, 1, 0, &[]).row);
    taken.table[8] = 0;
    reached.insert(taken.request(0, PEER, 1, 0, &[]).row);
}

fn reach_salvage(reached: &mut BTreeSet<Row>) {
    let good = End::new(1, 0);
    for (at, words) in [(0, 97), (98, 97), (624, 96), (700, 97)] {
        let mut end = good.clone();
        end.table[at] = 1;
        reached.insert(crate::salvage(&mut end.table, &mut vec![0; words]).row);
    }
}

#[test]
fn every_row_is_reached() {
    let mut reached = BTreeSet::new();
    reach_records(&mut reached);
    reach_without_record(&mut reached);
    reach_refusals(&mut reached);
    reach_salvage(&mut reached);
    let missed: Vec<&str> = Row::ALL.iter().filter(|row| !reached.contains(row)).map(|row| row.name()).collect();
    assert_eq!(missed, [""; 0]);
}

#[test]
fn each_row_has_a_name_of_its_own() {
    let names: BTreeSet<&str> = Row::ALL.iter().map(|row| row.name()).collect();
    assert_eq!(names.len(), Row::ALL.len());
}
