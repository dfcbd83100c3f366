//! What the two ends keep between calls, and how much of it is lent.

use kit::layout::{CELL, HEADER, RECORD};
use wtp::ffi;

/// The most that can be lent: a little more than a call ever needs, so that what is too long can be lent too.
const MOST: Sizes = Sizes { table: HEADER + 49 * RECORD, store: 49 * CELL, out: 1200, answer: 48, settings: 40 };

/// What the output and the answer hold before a call.
pub const UNTOUCHED: u8 = 238;
pub const UNTOUCHED_WORD: u64 = 77;

#[derive(Clone, Copy)]
pub struct Sizes {
    pub table: usize,
    pub store: usize,
    pub out: usize,
    pub answer: usize,
    pub settings: usize,
}

/// All that a call of one end is lent, past what is lent too.
#[derive(Clone, PartialEq, Eq)]
pub struct Buffers {
    pub table: Vec<u8>,
    pub store: Vec<u8>,
    pub out: Vec<u8>,
    pub answer: Vec<u64>,
}

pub struct End {
    pub records: u64,
    pub buffers: Buffers,
    /// The PDU that it sent last.
    pub last: Vec<u8>,
}

pub struct Desk {
    pub ends: [End; 2],
    pub settings: Vec<u64>,
    /// None: what is right.
    pub lent: Option<Sizes>,
}

impl Sizes {
    fn right(records: u64) -> Sizes {
        let octets = |size: u64, most: usize| usize::try_from(size).map_or(most, |size| size.min(most));
        Sizes {
            table: octets(ffi::table_bytes(records), MOST.table),
            store: octets(records.saturating_mul(CELL as u64), MOST.store),
            out: 1100,
            answer: ffi::ANSWER + 1,
            settings: ffi::SETTINGS,
        }
    }

    fn at_most(self, most: Sizes) -> Sizes {
        Sizes {
            table: self.table.min(most.table),
            store: self.store.min(most.store),
            out: self.out.min(most.out),
            answer: self.answer.min(most.answer),
            settings: self.settings.min(most.settings),
        }
    }
}

impl Buffers {
    /// Output and answer as no call has touched them.
    pub fn clean(&mut self) {
        self.out.fill(UNTOUCHED);
        self.answer.fill(UNTOUCHED_WORD);
    }

    pub fn lend(&mut self, sizes: Sizes) -> ffi::Lent<'_> {
        ffi::Lent {
            table: &mut self.table[..sizes.table],
            store: &mut self.store[..sizes.store],
            out: &mut self.out[..sizes.out],
            answer: &mut self.answer[..sizes.answer],
        }
    }
}

impl End {
    fn new() -> End {
        let (table, store) = (vec![0; MOST.table], vec![0; MOST.store]);
        let (out, answer) = (vec![UNTOUCHED; MOST.out], vec![UNTOUCHED_WORD; MOST.answer]);
        End { records: 0, buffers: Buffers { table, store, out, answer }, last: Vec::new() }
    }
}

impl End {
    /// The octets of a record; an error where the table has no such place.
    pub fn record(&mut self, place: usize) -> Result<&mut [u8], String> {
        let missing = format!("there is no place {place}");
        let records = usize::try_from(self.records).unwrap_or_default();
        let octets = self.buffers.table.get_mut(HEADER..).unwrap_or_default();
        octets.chunks_exact_mut(RECORD).take(records).nth(place).ok_or(missing)
    }
}

impl Desk {
    pub fn new() -> Desk {
        Desk { ends: [End::new(), End::new()], settings: usual(), lent: None }
    }

    /// How much is lent to a call of this end.
    pub fn sizes(&self, end: usize) -> Sizes {
        self.lent.unwrap_or_else(|| Sizes::right(self.ends[end].records)).at_most(MOST)
    }

    /// The usual settings, but for these words; an error where there is no such word.
    pub fn set(&mut self, words: &[(usize, u64)]) -> Result<(), String> {
        self.settings = usual();
        for (place, value) in words {
            *self.settings.get_mut(*place).ok_or_else(|| format!("there is no setting {place}"))? = *value;
        }
        Ok(())
    }
}

/// RCR_MAX 4, AEC_MAX 2, A 1,000, W 5,000, R 2,000 of class 1 and 3,000 of class 2, each growing by 100.
fn usual() -> Vec<u64> {
    let row = |first: u64| (0..9).map(move |step| first + 100 * step);
    let mut words: Vec<u64> = [4, 2, 1000, 5000].into_iter().chain(row(2000)).chain(row(3000)).collect();
    words.resize(MOST.settings, 0);
    words
}
