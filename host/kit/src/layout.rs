//! Where the fields of a table lie (docs/TABLE.md).

pub const CELL: usize = 1024;
pub const HEADER: usize = 624;
pub const RECORD: usize = 176;
pub const CACHE: usize = 112;
pub const LAST_TIME: u64 = 1_000_000_000_000;
pub const LONGEST: u64 = 86_400_000;
pub const PEERS: usize = 256;
pub const STATES: u64 = 11;
/// States 1 to this one are an initiator's.
pub const INITIATOR_STATES: u64 = 4;

/// A number in the table: its first octet, its octets and its range.
#[derive(Clone, Copy)]
pub struct Field {
    pub at: usize,
    pub octets: usize,
    pub least: u64,
    pub most: u64,
}

const fn field(at: usize, octets: usize, least: u64, most: u64) -> Field {
    Field { at, octets, least, most }
}

pub const CLOCK: Field = field(0, 8, 0, LAST_TIME);
pub const GEN_TID: Field = field(8, 2, 0, 32_767);
pub const RCR_MAX: Field = field(10, 1, 0, 8);
pub const AEC_MAX: Field = field(11, 1, 0, 8);
/// A, W and the 18 R are fields like this one after the other.
pub const INTERVAL: Field = field(12, 4, 1, LONGEST);
pub const INTERVALS: usize = 20;
/// It is 0 where the modes are 0, and not where they are 1.
pub const WAITING_LIMIT: Field = field(92, 4, 0, LONGEST);
pub const MODES: Field = field(96, 1, 0, 1);
pub const TIDNEW_DUE: Field = field(97, 1, 0, 1);
/// Spare octets of the header lie from here to the cached TIDs.
pub const SPARE: usize = 98;
/// The first of the cached TIDs.
pub const CACHED: Field = field(CACHE, 2, 0, 32_768);

pub const STATE: Field = field(0, 1, 0, STATES);
pub const PEER: Field = field(1, 1, 0, 255);
pub const TID: Field = field(2, 2, 0, 32_767);
pub const RCR: Field = field(4, 1, 0, 8);
pub const AEC: Field = field(5, 1, 0, 8);
/// The highest of the flags, TIDnew, is an initiator's: a responder's are 0 to 15.
pub const FLAGS: Field = field(6, 1, 0, 31);
pub const RESPONDER_FLAGS: u64 = 15;
pub const EXIT_LENGTH: Field = field(7, 1, 0, 128);
pub const DEADLINE: Field = field(8, 8, 0, LAST_TIME + LONGEST);
pub const MESSAGE: Field = field(16, 4, 0, 1024);
/// The waiting limit in force.
pub const LIMIT: Field = field(20, 4, 0, LONGEST);
/// The identity of an unknown item; 0 where there is none.
pub const UNKNOWN: Field = field(24, 1, 6, 15);
/// What an initiator's record has cost, up to `most_cost`; a responder's is 0.
pub const COST: Field = field(25, 4, 0, most_cost(RCR_MAX.most));
/// Spare octets of a record lie from here to its exit information.
pub const RECORD_SPARE: usize = 29;
pub const EXIT: usize = 48;

/// The most that an initiator's record may have cost in a table with this RCR_MAX.
pub const fn most_cost(rcr_max: u64) -> u64 {
    (1 + rcr_max) * (4 + CELL as u64)
}

pub fn table_bytes(records: usize) -> usize {
    HEADER + RECORD * records
}

impl Field {
    /// The same field `step` octets on.
    pub fn moved(self, step: usize) -> Field {
        Field { at: self.at + step, ..self }
    }

    /// The same field of the record at `place`.
    pub fn of_record(self, place: usize) -> Field {
        self.moved(HEADER + RECORD * place)
    }

    pub fn get(self, table: &[u8]) -> u64 {
        let octets = &table[self.at..self.at + self.octets];
        octets.iter().rev().fold(0, |number, octet| number << 8 | u64::from(*octet))
    }

    /// Stores as many low octets of `number` as the field has.
    pub fn set(self, table: &mut [u8], number: u64) {
        table[self.at..self.at + self.octets].copy_from_slice(&number.to_le_bytes()[..self.octets]);
    }
}

#[cfg(test)]
mod tests {
    use super::*;

    #[test]
    fn a_table_for_1_record_has_800_octets_and_one_for_48_has_9072() {
        assert_eq!(table_bytes(1), 800);
        assert_eq!(table_bytes(48), 9072);
    }

    #[test]
    fn a_field_is_stored_low_octet_first_and_read_back() {
        let mut table = vec![0; table_bytes(2)];
        TID.of_record(1).set(&mut table, 0x1234);
        assert_eq!(&table[HEADER + RECORD + 2..][..2], [0x34, 0x12]);
        assert_eq!(TID.of_record(1).get(&table), 0x1234);
    }

    #[test]
    fn a_record_may_have_cost_as_much_as_its_rcr_max_lets_it() {
        assert_eq!([0, 1, 8].map(most_cost), [1_028, 2_056, COST.most]);
        assert_eq!(COST.at + COST.octets, RECORD_SPARE);
    }

    #[test]
    fn the_intervals_end_where_the_waiting_limit_begins() {
        assert_eq!(INTERVAL.moved(4 * INTERVALS).at, WAITING_LIMIT.at);
        assert_eq!(CACHED.moved(2 * PEERS).at, HEADER);
    }
}
