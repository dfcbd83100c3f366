//! A table damaged one octet at a time, every octet with each of its other values, and then salvaged: what is said, for each field,
//! and what is left.

mod compared;
mod damaged;

use compared::compare;
use damaged::{fields, fresh, with_highest_cost, RECORDS};
use kit::layout::{self, table_bytes, HEADER, RECORD};
use std::collections::BTreeMap;
use wtp::ffi::{self, SALVAGED};

/// What salvages a table, and its number.
type Salvage = fn(&mut [u8], &mut [u64]) -> u64;

/// What was said of the tables that differ in one field, and what was left of them.
#[derive(Default)]
struct Tally {
    said: BTreeMap<String, usize>,
    live: usize,
    octets: u64,
}

impl Tally {
    fn count(&mut self, salvage: Salvage, damaged: &[u8]) {
        let mut table = damaged.to_vec();
        let mut list = [7; SALVAGED];
        let said = match salvage(&mut table, &mut list) {
            0 => listed(damaged, &list, &table),
            number if table == damaged && list == [7; SALVAGED] => format!("refused {number}"),
            _ => "A REFUSED CALL CHANGED SOMETHING".to_string(),
        };
        if list != [7; SALVAGED] {
            let records = table[HEADER..].chunks_exact(RECORD);
            self.live += records.filter(|record| layout::STATE.get(record) != 0).count();
            self.octets += table[HEADER..].iter().map(|octet| u64::from(*octet)).sum::<u64>();
        }
        *self.said.entry(said).or_default() += 1;
    }

    fn told(&self) -> String {
        let said: Vec<String> = self.said.iter().map(|(said, times)| format!("{times} {said}")).collect();
        format!("{}; {} live records left, octets {}", said.join("; "), self.live, self.octets)
    }
}

/// The list in words, and what is wrong with it: the table must be the damaged one with the listed places zeroed, well formed, and the
/// same when it is salvaged again.
fn listed(damaged: &[u8], list: &[u64; SALVAGED], table: &[u8]) -> String {
    let places = usize::try_from(list[0]).unwrap_or(usize::MAX);
    let entries: Vec<_> = list[1..].chunks_exact(2).take(places).collect();
    let mut expected = damaged.to_vec();
    let records = expected[HEADER..].chunks_exact_mut(RECORD).zip(0..);
    let zeroed = records.filter(|(_, place)| entries.iter().any(|entry| entry[0] == *place));
    zeroed.for_each(|(record, _)| record.fill(0));
    let (mut salvaged, mut again) = (table.to_vec(), [7; SALVAGED]);
    let wrong = [
        (list.iter().skip(1 + 2 * entries.len()).any(|word| *word != 0), "; WORDS PAST THE LIST"),
        (table != expected, "; NOT THE LISTED PLACES ALONE"),
        (ffi::deadline(table, &mut [0; ffi::DUE]) != 0, "; NOT WELL FORMED"),
        (ffi::salvage(&mut salvaged, &mut again) != 0 || salvaged != table || again != [0; SALVAGED], "; NOT ONCE FOR ALL"),
    ];
    let wrong: String = wrong.iter().filter(|(wrong, _)| *wrong).map(|(_, what)| *what).collect();
    let told: Vec<String> = entries.iter().map(|entry| format!("place {} reason {}", entry[0], entry[1])).collect();
    let told = if told.is_empty() { "nothing".to_string() } else { told.join(", ") };
    told + &wrong
}

fn told(salvage: Salvage, table: &[u8]) -> String {
    let fields = fields();
    let mut damaged = table.to_vec();
    let each = fields.iter().zip(&fields[1..]);
    each.map(|(from, to)| {
        let mut tally = Tally::default();
        for at in *from..*to {
            for value in (0..=255).filter(|value| *value != table[at]) {
                damaged[at] = value;
                tally.count(salvage, &damaged);
            }
            damaged[at] = table[at];
        }
        format!("octets {from} to {to}: {}\n", tally.told())
    })
    .collect()
}

/// An initiator in RESULT WAIT of class 2 and a responder in INVOKE RESP WAIT of class 2, for the peers 0 and 1.
fn of_either_role(mut table: Vec<u8>) -> Vec<u8> {
    layout::STATE.of_record(0).set(&mut table, 2);
    layout::STATE.of_record(1).set(&mut table, 8);
    layout::PEER.of_record(1).set(&mut table, 1);
    table
}

/// The second is an initiator too, for the same peer; the first has exit information, and octets past it.
fn of_one_name(mut table: Vec<u8>) -> Vec<u8> {
    layout::STATE.of_record(1).set(&mut table, 3);
    layout::PEER.of_record(1).set(&mut table, 0);
    layout::EXIT_LENGTH.of_record(0).set(&mut table, 2);
    table[table_bytes(0) + layout::EXIT..][..4].copy_from_slice(&[0xAA, 0xBB, 0xCC, 0xDD]);
    table
}

fn first_out_of_range(mut table: Vec<u8>) -> Vec<u8> {
    layout::RCR.of_record(0).set(&mut table, 5);
    table
}

fn second_not_zero(mut table: Vec<u8>) -> Vec<u8> {
    layout::STATE.of_record(1).set(&mut table, 0);
    table[table_bytes(RECORDS) - 1] = 1;
    table
}

#[test]
fn what_salvage_says_and_leaves_is_what_document_02_says() {
    let free = fresh();
    let either = of_either_role(free.clone());
    let costly = with_highest_cost(either.clone());
    let one_name = of_one_name(either.clone());
    let out_of_range = first_out_of_range(one_name.clone());
    let not_zero = second_not_zero(out_of_range.clone());
    let tables = [
        ("a fresh table of two records", free),
        ("an initiator and a responder", either),
        ("the same with the highest cost in the first record", costly),
        ("two records of one name", one_name),
        ("the same, RCR of the first over RCR_MAX", out_of_range),
        ("the same, the second free and not zero", not_zero),
    ];
    let all: String = tables.iter().map(|(title, table)| format!("{title}\n{}", told(ffi::salvage, table))).collect();
    compare(&all, "damage/salvaged.txt");
}

/// The counts for one octet of a table of one name twice.
fn counted(salvage: Salvage) -> String {
    let mut tally = Tally::default();
    tally.count(salvage, &of_one_name(of_either_role(fresh())));
    tally.told()
}

#[test]
fn a_list_or_a_refusal_that_is_wrong_is_told() {
    assert_eq!(counted(ffi::salvage), "1 place 1 reason 3; 1 live records left, octets 786");
    let changed = |table: &mut [u8], _: &mut [u64]| {
        table[0] = 1;
        15
    };
    assert!(counted(changed).starts_with("1 A REFUSED CALL CHANGED SOMETHING; "));
}

/// Keeps the higher of two places.
fn keeps_the_highest(table: &mut [u8], list: &mut [u64]) -> u64 {
    table[HEADER..][..RECORD].fill(0);
    list.fill(0);
    list[..3].copy_from_slice(&[1, 0, 3]);
    0
}

/// Frees the record, and leaves its exit information.
fn leaves_octets(table: &mut [u8], list: &mut [u64]) -> u64 {
    let number = ffi::salvage(table, list);
    table[table_bytes(RECORDS) - 1] = 9;
    number
}

/// Lists a place that it leaves.
fn lists_too_much(table: &mut [u8], list: &mut [u64]) -> u64 {
    let number = ffi::salvage(table, list);
    list[..5].copy_from_slice(&[2, 0, 1, 1, 3]);
    list[96] = 9;
    number
}

#[test]
fn a_wrong_salvage_is_told() {
    assert!(counted(keeps_the_highest).starts_with("1 place 0 reason 3; "));
    let left = "; NOT THE LISTED PLACES ALONE; NOT WELL FORMED; NOT ONCE FOR ALL; ";
    assert!(counted(leaves_octets).starts_with(&format!("1 place 1 reason 3{left}")));
    let listed = "1 place 0 reason 1, place 1 reason 3; WORDS PAST THE LIST; NOT THE LISTED PLACES ALONE; ";
    assert!(counted(lists_too_much).starts_with(listed), "{}", counted(lists_too_much));
}
