//! The fresh-table call and the size of a table.

use crate::bounds;
use crate::octets::put_at;
use crate::record;
use crate::table::{self, AEC_MAX, GEN_TID, HEADER, INTERVALS, MODES, RCR_MAX, TIDNEW_DUE, WAITING_LIMIT};
use crate::words::SETTINGS;

/// Words of the settings: two maxima, then the intervals, the modes, the waiting limit, then zeros.
const FIRST_INTERVAL: usize = 2;
const MODES_WORD: usize = 22;
const LIMIT_WORD: usize = 23;
const FIRST_ZERO: usize = 24;

pub fn table_bytes(records: u64) -> u64 {
    match usize::try_from(records) {
        Ok(records) if (1..=bounds::RECORDS).contains(&records) => (HEADER + record::OCTETS * records) as u64,
        _ => 0,
    }
}

pub fn fresh(table: &mut [u8], settings: &[u64], first_tid: u64) -> u64 {
    if table::records_in(table.len()).is_none() {
        return 1;
    }
    if first_tid > bounds::TID.into() || !are_settings(settings) {
        return 10;
    }
    table.fill(0);
    put_at(table, GEN_TID, &(first_tid as u16).to_le_bytes());
    table[RCR_MAX] = settings[0] as u8;
    table[AEC_MAX] = settings[1] as u8;
    for (interval, octets) in settings[FIRST_INTERVAL..MODES_WORD].iter().zip(table[INTERVALS..].chunks_exact_mut(4)) {
        octets.copy_from_slice(&(*interval as u32).to_le_bytes());
    }
    put_at(table, WAITING_LIMIT, &(settings[LIMIT_WORD] as u32).to_le_bytes());
    table[MODES] = settings[MODES_WORD] as u8;
    table[TIDNEW_DUE] = 1;
    0
}

fn are_settings(words: &[u64]) -> bool {
    words.len() == SETTINGS
        && words[..FIRST_INTERVAL].iter().all(|most| *most <= bounds::COUNTER.into())
        && words[FIRST_INTERVAL..MODES_WORD].iter().all(|interval| (1..=bounds::INTERVAL.into()).contains(interval))
        && table::is_waiting_limit(words[MODES_WORD], words[LIMIT_WORD])
        && words[FIRST_ZERO..].iter().all(|word| *word == 0)
}
