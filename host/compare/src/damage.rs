//! Damages a table: fields just in or out of range, octets at random, names twice, and odd records that are still well formed.

use kit::layout::{self, Field, LONGEST};
use kit::Random;

/// The fields of a record; what RCR, AEC and cost may be is what the settings say.
const OF_RECORD: [Field; 12] = [
    layout::STATE,
    layout::PEER,
    layout::TID,
    layout::RCR,
    layout::AEC,
    layout::FLAGS,
    layout::EXIT_LENGTH,
    layout::DEADLINE,
    layout::MESSAGE,
    layout::LIMIT,
    layout::UNKNOWN,
    layout::COST,
];

/// Changes the table of so many records in one of several ways; it may still be well formed then.
pub fn damage(random: &mut Random, table: &mut [u8], records: usize) {
    let place = random.place(records);
    let of_header = header_field(random);
    let of_record = random.of(&OF_RECORD).of_record(place);
    match random.below(14) {
        0 => scribble(random, table, layout::table_bytes(records)),
        1 => set_edge(random, table, of_header),
        2 | 11 => {
            put_odd_record(random, table, place);
            set_edge(random, table, of_record);
        }
        3 => repeat_name(random, table, records),
        4 => spend_spare(random, table, place),
        5 => meet_gen_tid(random, table, place),
        6 => (0..records).for_each(|place| put_odd_record(random, table, place)),
        7 => free_with_one_octet(random, table, place),
        8 => set_in_range(random, table, of_header),
        12 => limit_waits(random, table),
        13 => nearly_spend(random, table, place),
        _ => put_odd_record(random, table, place),
    }
}

/// Changes one to three octets anywhere in the table.
fn scribble(random: &mut Random, table: &mut [u8], octets: usize) {
    for _ in 0..1 + random.below(3) {
        table[random.place(octets)] = random.octet();
    }
}

fn header_field(random: &mut Random) -> Field {
    match random.below(9) {
        0 => layout::CLOCK,
        1 => layout::GEN_TID,
        2 => layout::RCR_MAX,
        3 => layout::AEC_MAX,
        4 => layout::TIDNEW_DUE,
        5 => layout::WAITING_LIMIT,
        6 => layout::MODES,
        7 => layout::INTERVAL.moved(4 * random.place(layout::INTERVALS)),
        _ => layout::CACHED.moved(2 * random.place(layout::PEERS)),
    }
}

/// Sets a field to an end of its range, or just past it.
fn set_edge(random: &mut Random, table: &mut [u8], field: Field) {
    let now = field.get(table);
    let past = field.most + 1;
    let edges = [field.least, field.least.wrapping_sub(1), field.most, past, past, now.wrapping_add(1), u64::MAX];
    field.set(table, random.of(&edges));
}

fn set_in_range(random: &mut Random, table: &mut [u8], field: Field) {
    field.set(table, field.least + random.below(field.most - field.least + 1));
}

/// Copies one record over another: two live records of one name, unless one part of the name is then changed.
fn repeat_name(random: &mut Random, table: &mut [u8], records: usize) {
    let [from, to] = [(); 2].map(|_| layout::table_bytes(random.place(records)));
    table.copy_within(from..from + layout::RECORD, to);
    let part = random.of(&[layout::STATE, layout::PEER, layout::TID]).moved(to);
    if random.percent(60) {
        set_in_range(random, table, part);
    }
}

fn spend_spare(random: &mut Random, table: &mut [u8], place: usize) {
    let of_record = layout::table_bytes(place) + random.of(&[layout::RECORD_SPARE, layout::EXIT - 1]);
    let at = random.of(&[layout::SPARE, layout::CACHE - 1, of_record]);
    table[at] = random.of(&[0, 1, 255]);
}

/// Gives the table another waiting limit or none, whatever limits its records have in force; modes and limit mostly go together.
fn limit_waits(random: &mut Random, table: &mut [u8]) {
    let limit = random.of(&[0, 1, 3, 20, LONGEST, LONGEST + 1]);
    layout::WAITING_LIMIT.set(table, limit);
    layout::MODES.set(table, if random.percent(80) { u64::from(limit != 0) } else { random.below(4) });
}

/// Gives a record of either role a cost about the most that one may have, in range or not.
fn nearly_spend(random: &mut Random, table: &mut [u8], place: usize) {
    put_odd_record(random, table, place);
    let most = layout::most_cost(layout::RCR_MAX.get(table));
    layout::COST.of_record(place).set(table, random.of(&[1, most - 4, most - 3, most - 1, most, most, most + 1]));
}

/// Makes GenTID the TID of a record, so that a request finds it in use.
fn meet_gen_tid(random: &mut Random, table: &mut [u8], place: usize) {
    put_odd_record(random, table, place);
    let state = layout::STATE.of_record(place);
    if random.percent(80) {
        state.set(table, 1 + random.below(layout::INITIATOR_STATES));
    }
    layout::GEN_TID.set(table, layout::TID.of_record(place).get(table));
}

fn free_with_one_octet(random: &mut Random, table: &mut [u8], place: usize) {
    let start = layout::table_bytes(place);
    table[start..start + layout::RECORD].fill(0);
    table[start + random.place(layout::RECORD)] = random.of(&[0, 1, 11, 128, 255]);
}

/// Puts a live record whose fields are in range there, whether or not the engine would ever leave it so.
fn put_odd_record(random: &mut Random, table: &mut [u8], place: usize) {
    let clock = layout::CLOCK.get(table);
    let start = layout::table_bytes(place);
    let state = 1 + random.below(layout::STATES);
    let (flags, cost) = if state <= layout::INITIATOR_STATES {
        (layout::FLAGS.most, layout::most_cost(layout::RCR_MAX.get(table)))
    } else {
        (layout::RESPONDER_FLAGS, 0)
    };
    let values = [
        state,
        random.below(4),
        random.of(&[0, 5, 32_760]) + random.below(8),
        random.below(layout::RCR_MAX.get(table) + 1),
        random.below(layout::AEC_MAX.get(table) + 1),
        random.below(flags + 1),
        random.of(&[0, 1, 3, 4, 128]),
        odd_deadline(random, clock),
        random.of(&[0, 1, 7, 1023, 1024]),
        random.of(&[0, 0, 1, 9, LONGEST]),
        random.of(&[0, 0, layout::UNKNOWN.least, 9, layout::UNKNOWN.most]),
        random.of(&[0, cost.min(7), cost / 2, cost.saturating_sub(3), cost]),
    ];
    table[start..start + layout::EXIT].fill(0);
    OF_RECORD.iter().zip(values).for_each(|(field, value)| field.of_record(place).set(table, value));
    random.fill(&mut table[start + layout::EXIT..start + layout::RECORD]);
}

/// None, past, near or as far as may be.
fn odd_deadline(random: &mut Random, clock: u64) -> u64 {
    match random.below(10) {
        0 | 1 => 0,
        2 => layout::DEADLINE.most - random.below(2),
        _ => clock.saturating_sub(2).saturating_add(random.below(20)).min(layout::DEADLINE.most),
    }
}

#[cfg(test)]
mod tests {
    use super::*;
    use wtp::ffi;

    /// The number of a timer call after the damage.
    fn number(random: &mut Random, change: fn(&mut Random, &mut [u8])) -> u64 {
        let mut table = vec![0; layout::table_bytes(3)];
        let mut settings = [0; 32];
        settings[2..22].fill(9);
        assert_eq!(ffi::fresh(&mut table, &settings, 0), 0);
        change(random, &mut table);
        let (mut store, mut out, mut answer) = (vec![0; 3 * 1024], [0; 1028], [0; ffi::ANSWER]);
        let lent = ffi::Lent { table: &mut table, store: &mut store, out: &mut out, answer: &mut answer };
        ffi::timer(lent, layout::LAST_TIME)
    }

    #[test]
    fn damage_is_refused_often_and_often_leaves_the_table_well_formed() {
        let mut random = Random::new(1);
        let refused = (0..600).filter(|_| number(&mut random, |random, table| damage(random, table, 3)) == 1).count();
        assert!((60..540).contains(&refused), "{refused}");
    }

    #[test]
    fn an_odd_record_is_well_formed() {
        let mut random = Random::new(2);
        (0..200).for_each(|_| assert_eq!(number(&mut random, |random, table| put_odd_record(random, table, 1)), 0));
    }

    #[test]
    fn a_damaged_table_can_be_damaged_again() {
        let mut random = Random::new(3);
        let mut table = vec![0xFF; layout::table_bytes(2)];
        (0..2000).for_each(|_| damage(&mut random, &mut table, 2));
    }
}
