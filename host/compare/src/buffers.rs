//! The buffers of one side: a little longer than a call is lent, so that a write past the end is seen too.

use crate::calls::Sizes;
use kit::layout;

/// Octets past the output that the writer asks for, and words past the longest that are lent.
const OUT: usize = wtp::ffi::OUTPUT + 4;
const WORDS: usize = wtp::ffi::SALVAGED + 4;

#[derive(Clone, Default)]
pub struct Buffers {
    pub table: Vec<u8>,
    pub store: Vec<u8>,
    pub out: Vec<u8>,
    /// Answer, deadline, list, fields or part.
    pub words: Vec<u64>,
}

/// The parts of the buffers that a call is lent.
pub struct Lent<'a> {
    pub table: &'a mut [u8],
    pub store: &'a mut [u8],
    pub out: &'a mut [u8],
    pub words: &'a mut [u64],
}

impl Buffers {
    /// Takes the sizes for a table of so many records; there is room for one record more.
    pub fn resize(&mut self, records: usize) {
        self.table.resize(layout::table_bytes(records + 1) + 1, 0);
        self.store.resize(layout::CELL * (records + 1) + 1, 0);
        self.out.resize(OUT, 0);
        self.words.resize(WORDS, 0);
    }

    pub fn lend(&mut self, sizes: Sizes) -> Lent<'_> {
        Lent {
            table: first(&mut self.table, sizes.table),
            store: first(&mut self.store, sizes.store),
            out: first(&mut self.out, sizes.out),
            words: first(&mut self.words, sizes.words),
        }
    }

    pub fn copy_from(&mut self, other: &Buffers) {
        self.table.clone_from(&other.table);
        self.store.clone_from(&other.store);
        self.out.clone_from(&other.out);
        self.words.clone_from(&other.words);
    }
}

fn first<T>(all: &mut [T], count: usize) -> &mut [T] {
    let count = count.min(all.len());
    &mut all[..count]
}
