//! Damages a table for salvage: in the ways of every other damage, several at once, and whole records, copied and overwritten.

use crate::damage;
use kit::{layout, Random};

/// Damages the table of so many records; its header mostly stays in range, so that there is something to salvage.
pub fn damage(random: &mut Random, table: &mut [u8], records: usize) {
    if random.percent(20) {
        (0..1 + random.below(3)).for_each(|_| damage::damage(random, table, records));
        return;
    }
    let header = table[..layout::HEADER].to_vec();
    for _ in 0..random.of(&[0, 1, 1, 2, 3, 5, 8]) {
        match random.below(3) {
            0 => overwrite(random, table, records),
            1 => copy(random, table, records),
            _ => damage::damage(random, table, records),
        }
    }
    table[..layout::HEADER].copy_from_slice(&header);
    if random.percent(10) {
        let lowered = random.of(&[layout::RCR_MAX, layout::AEC_MAX]);
        lowered.set(table, random.below(lowered.get(table) + 1));
    }
}

/// One octet over a whole record, or over one that is free by its state.
fn overwrite(random: &mut Random, table: &mut [u8], records: usize) {
    let start = layout::table_bytes(random.place(records));
    let octet = random.of(&[0, 0, 1, 11, 12, 255]);
    table[start..start + layout::RECORD].fill(octet);
    if random.percent(40) {
        table[start] = random.of(&[0, 0, 1, 8, 11, 12, 255]);
    }
    if random.percent(40) {
        table[start + random.place(layout::RECORD)] = random.octet();
    }
}

/// Copies one record over others.
fn copy(random: &mut Random, table: &mut [u8], records: usize) {
    let from = layout::table_bytes(random.place(records));
    for _ in 0..1 + random.below(3) {
        let to = layout::table_bytes(random.place(records));
        table.copy_within(from..from + layout::RECORD, to);
        if random.percent(30) {
            layout::STATE.moved(to).set(table, random.below(layout::STATES + 2));
        }
    }
}

#[cfg(test)]
mod tests {
    use super::*;
    use std::collections::BTreeSet;
    use wtp::ffi::SALVAGED;

    #[test]
    fn every_number_and_every_reason_comes_about() {
        let mut random = Random::new(1);
        let (mut settings, mut seen) = ([0; 32], BTreeSet::new());
        settings[2..22].fill(9);
        for _ in 0..300 {
            let mut table = vec![0; layout::table_bytes(4)];
            assert_eq!(twin::fresh(&mut table, &settings, 0), 0);
            damage(&mut random, &mut table, 4);
            let mut list = [0; SALVAGED];
            let number = twin::salvage(&mut table, &mut list).number;
            let reasons = list[1..].chunks_exact(2).take(list[0] as usize).map(|entry| entry[1]);
            seen.extend(reasons.chain([number]));
        }
        assert!(seen.into_iter().eq([0, 1, 2, 3, 15]));
    }
}
