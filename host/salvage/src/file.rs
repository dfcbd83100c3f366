//! A file with a table: the table alone, or a state file.

use kit::layout::{HEADER, RECORD};
use link::state::{is_state, State};
use wtp::{Salvaged, Table};

/// Larger than any table or state file.
pub const LARGEST: u64 = 16_000_000;
const MOST_RECORDS: usize = 48;

#[derive(Debug, Clone, PartialEq, Eq)]
pub enum TableFile {
    Table(Vec<u8>),
    State(State),
}

impl TableFile {
    /// What the octets of a file are, or what is wrong with them. The table may hold anything.
    pub fn of(octets: &[u8]) -> Result<TableFile, String> {
        if is_state(octets) {
            return State::of(octets).map(TableFile::State);
        }
        let records = octets.len().checked_sub(HEADER).filter(|rest| rest % RECORD == 0).map(|rest| rest / RECORD);
        match records {
            Some(1..=MOST_RECORDS) => Ok(TableFile::Table(octets.to_vec())),
            _ => Err(format!(
                "has {} octets, and a table {HEADER} + {RECORD} for each of 1 to {MOST_RECORDS} records: it is cut short, of another \
                 version, or no table",
                octets.len()
            )),
        }
    }

    pub fn table(&self) -> &[u8] {
        match self {
            TableFile::Table(table) => table,
            TableFile::State(state) => &state.table,
        }
    }

    /// The file with its table salvaged, and the places that were freed for it.
    pub fn salvaged(&self) -> Result<(TableFile, Vec<Salvaged>), String> {
        // The store isn't lent to salvage.
        let mut table = Table::kept(self.table().to_vec(), Vec::new());
        let places = table.salvage().map_err(|why| format!("can't be salvaged: {why}"))?;
        let table = table.octets().0.to_vec();
        let file = match self {
            TableFile::Table(_) => TableFile::Table(table),
            TableFile::State(state) => TableFile::State(State { table, ..state.clone() }),
        };
        Ok((file, places))
    }

    pub fn octets(&self) -> Vec<u8> {
        match self {
            TableFile::Table(table) => table.clone(),
            TableFile::State(state) => state.octets(),
        }
    }
}

#[cfg(test)]
mod tests {
    use super::*;
    use kit::layout;
    use link::state::Whose;
    use wtp::{Damage, Settings};

    /// A table of two records, one of them live.
    fn table() -> Table {
        let settings =
            Settings { rcr_max: 2, aec_max: 1, a: 9, w: 9, r_class_1: [9; 9], r_class_2: [9; 9], waiting_limit: Some(9) };
        let mut table = Table::fresh(2, &settings, 5).unwrap();
        table.request(0, 7, 2, false, b"data").unwrap();
        table
    }

    fn damaged() -> Vec<u8> {
        let mut octets = table().octets().0.to_vec();
        layout::TID.of_record(1).set(&mut octets, 9);
        octets
    }

    #[test]
    fn a_table_is_salvaged_by_itself() {
        let whole = TableFile::of(table().octets().0).unwrap();
        assert_eq!(whole.salvaged(), Ok((whole.clone(), vec![])));
        let (after, places) = TableFile::of(&damaged()).unwrap().salvaged().unwrap();
        assert_eq!(places, [Salvaged { place: 1, damage: Damage::FreeNotZero }]);
        assert_eq!(after.octets(), table().octets().0);
    }

    #[test]
    fn in_a_state_file_the_rest_stays() {
        let store = table().octets().1.to_vec();
        let state = State { whose: Whose::Reader, table: damaged(), store, notes: b"any".to_vec() };
        let (after, places) = TableFile::of(&state.octets()).unwrap().salvaged().unwrap();
        assert_eq!(places.len(), 1);
        assert_eq!(after.octets(), State { table: table().octets().0.to_vec(), ..state }.octets());
    }

    #[test]
    fn what_is_no_table_is_named() {
        for length in [0, 1, 623, 624, 799, 801, 9_073, 9_248] {
            let message = TableFile::of(&vec![0; length]).unwrap_err();
            assert!(message.starts_with(&format!("has {length} octets, and a table 624 + 176")), "{message}");
        }
        assert!(TableFile::of(b"wtpstate\x01").unwrap_err().starts_with("is cut short"));
        let wrong = TableFile::of(&[0xFF; 800]).unwrap().salvaged().unwrap_err();
        assert_eq!(wrong, "can't be salvaged: a field of the table outside its records is out of range (number 15)");
    }
}
