//! The table that is damaged, and its fields.

use kit::layout::{self, table_bytes, HEADER, RECORD};
use wtp::ffi;

pub const RECORDS: usize = 2;

/// Where the fields of docs/TABLE.md start, some of them taken together.
const OF_HEADER: [usize; 10] =
    [0, 8, 10, 12, 20, layout::WAITING_LIMIT.at, layout::MODES.at, layout::TIDNEW_DUE.at, layout::SPARE, layout::CACHE];
const OF_RECORD: [usize; 12] =
    [0, 1, 2, 4, 6, 8, 16, layout::LIMIT.at, layout::UNKNOWN.at, layout::COST.at, layout::RECORD_SPARE, layout::EXIT];

/// Where each field starts, and where the table ends.
pub fn fields() -> Vec<usize> {
    let of_records = (0..RECORDS).flat_map(|place| OF_RECORD.iter().map(move |at| HEADER + RECORD * place + at));
    OF_HEADER.into_iter().chain(of_records).chain([table_bytes(RECORDS)]).collect()
}

/// The first record is an initiator's that has cost as much as may be.
pub fn with_highest_cost(mut table: Vec<u8>) -> Vec<u8> {
    let most = layout::most_cost(layout::RCR_MAX.get(&table));
    layout::COST.of_record(0).set(&mut table, most);
    table
}

/// RCR_MAX 4, AEC_MAX 5, A 1,000, W 2,000, R 3,000 of class 1 and 4,000 of class 2.
pub fn fresh() -> Vec<u8> {
    let mut settings = [&[4, 5, 1000, 2000][..], &[3000; 9], &[4000; 9]].concat();
    settings.resize(ffi::SETTINGS, 0);
    let mut table = vec![7; table_bytes(RECORDS)];
    assert_eq!(ffi::fresh(&mut table, &settings, 7), 0);
    table
}
