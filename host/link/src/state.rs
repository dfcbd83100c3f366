//! The octets of a state file: what a reader or a gateway goes on from after it was cut off.
//!
//! A head of sixteen octets, then the table, its store and the notes. The head: eight octets that every state file has, the version,
//! whose it is, the number of records (two octets), the octets of the notes (four), the low octet first.

use kit::layout;

const MAGIC: &[u8; 8] = b"wtpstate";
/// The form of the file; a program reads its own.
const VERSION: u8 = 1;
const HEAD: usize = 16;
const MOST_RECORDS: usize = 48;

#[derive(Debug, Clone, Copy, PartialEq, Eq)]
pub enum Whose {
    Reader = 1,
    Gateway = 2,
}

impl Whose {
    fn of(octet: u8) -> Option<Whose> {
        [Whose::Reader, Whose::Gateway].into_iter().find(|whose| *whose as u8 == octet)
    }

    pub fn name(self) -> &'static str {
        match self {
            Whose::Reader => "reader",
            Whose::Gateway => "gateway",
        }
    }
}

#[derive(Debug, Clone, PartialEq, Eq)]
pub struct State {
    pub whose: Whose,
    pub table: Vec<u8>,
    pub store: Vec<u8>,
    pub notes: Vec<u8>,
}

/// Whether a file begins as a state file does.
pub fn is_state(octets: &[u8]) -> bool {
    octets.starts_with(MAGIC)
}

impl State {
    /// The state in these octets, or why there is none. Table, store and notes may hold anything.
    pub fn of(octets: &[u8]) -> Result<State, String> {
        let (known, rest) = octets.split_at(octets.len().min(MAGIC.len()));
        if !MAGIC.starts_with(known) {
            return Err("isn't a state file".into());
        }
        match *rest {
            [version, ..] if version != VERSION => {
                Err(format!("is a state file of version {version}; this program reads version {VERSION}"))
            }
            [_, whose, low, high, a, b, c, d, ref rest @ ..] => {
                let whose = Whose::of(whose).ok_or("is a state file of a program that isn't known here")?;
                let notes = u32::from_le_bytes([a, b, c, d]);
                State::whole(whose, rest, u16::from_le_bytes([low, high]).into(), notes.try_into().unwrap_or(usize::MAX))
            }
            _ => Err(format!("is cut short: it has {} octets", octets.len())),
        }
    }

    /// The parts after the head; none may be missing and nothing may follow.
    fn whole(whose: Whose, octets: &[u8], records: usize, notes: usize) -> Result<State, String> {
        if !(1..=MOST_RECORDS).contains(&records) {
            return Err(format!("says that its table has {records} records; a table has 1 to {MOST_RECORDS}"));
        }
        let (table, store) = (layout::table_bytes(records), layout::CELL * records);
        let (has, says) = (HEAD + octets.len(), (HEAD + table + store).saturating_add(notes));
        if has != says {
            let what = if has < says { "is cut short" } else { "is too long" };
            return Err(format!("{what}: it has {has} octets and says that it has {says}"));
        }
        let (table, rest) = octets.split_at(table);
        let (store, notes) = rest.split_at(store);
        Ok(State { whose, table: table.to_vec(), store: store.to_vec(), notes: notes.to_vec() })
    }

    /// The octets of the file.
    pub fn octets(&self) -> Vec<u8> {
        let records = u16::try_from(self.store.len() / layout::CELL).unwrap_or_default();
        let notes = u32::try_from(self.notes.len()).unwrap_or_default();
        let head = [&MAGIC[..], &[VERSION, self.whose as u8], &records.to_le_bytes(), &notes.to_le_bytes()].concat();
        [&head, &self.table, &self.store, &self.notes].map(Vec::as_slice).concat()
    }
}

#[cfg(test)]
mod tests {
    use super::*;

    fn state() -> State {
        State { whose: Whose::Gateway, table: vec![7; 976], store: vec![8; 2_048], notes: b"own x\n".to_vec() }
    }

    #[test]
    fn a_state_is_read_as_it_was_written() {
        let octets = state().octets();
        assert_eq!(octets.len(), 16 + 976 + 2_048 + 6);
        assert_eq!(octets[..16], *b"wtpstate\x01\x02\x02\x00\x06\x00\x00\x00");
        assert_eq!(State::of(&octets), Ok(state()));
        assert!(is_state(&octets) && !is_state(&octets[1..]));
    }

    #[test]
    fn wherever_a_file_is_cut_it_is_said() {
        let octets = state().octets();
        for length in 0..octets.len() {
            assert!(State::of(&octets[..length]).unwrap_err().starts_with("is cut short: it has "), "{length}");
        }
        let long = [&octets[..], b"x"].concat();
        assert_eq!(State::of(&long), Err("is too long: it has 3047 octets and says that it has 3046".into()));
    }

    #[test]
    fn another_file_version_program_or_number_of_records_is_named() {
        let with = |at: usize, octet: u8| {
            let mut octets = state().octets();
            octets[at] = octet;
            State::of(&octets).unwrap_err()
        };
        assert_eq!(with(0, b'x'), "isn't a state file");
        assert_eq!(with(8, 2), "is a state file of version 2; this program reads version 1");
        assert_eq!(with(9, 0), "is a state file of a program that isn't known here");
        assert_eq!(with(10, 0), "says that its table has 0 records; a table has 1 to 48");
        assert_eq!(with(10, 49), "says that its table has 49 records; a table has 1 to 48");
        assert!(with(10, 3).starts_with("is cut short: "));
        assert!(with(15, 255).starts_with("is cut short: "));
    }

    #[test]
    fn any_octets_are_borne() {
        let mut random = kit::Random::new(1);
        for length in (0..40).chain([3_046]) {
            let octets = [&MAGIC[..], &[VERSION], &random.octets(length)].concat();
            let _ = State::of(&octets);
        }
    }
}
