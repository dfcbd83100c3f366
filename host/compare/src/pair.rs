//! Plays each call on both sides, which started with equal buffers, and stops at the first difference.

use crate::buffers::Buffers;
use crate::calls::{Call, Kind};
use crate::differences::{self, Difference};
use crate::sides::{Said, Side};
use crate::tally::Tally;
use kit::{say, with_commas, Random};
use std::panic::{catch_unwind, AssertUnwindSafe};
use wtp::ffi::SALVAGED;

/// The fewest calls after which progress is told.
const PROGRESS: u64 = 1000;

/// Why no further call is made.
pub enum End {
    /// All calls that were asked for are made.
    Enough,
    Different(Box<Found>),
}

/// A difference with all that is needed to look into it.
pub struct Found {
    pub number: u64,
    pub call: String,
    /// What was compared.
    pub names: [&'static str; 2],
    pub said: [Said; 2],
    pub difference: Difference,
    /// The table that the call was lent.
    pub table: Vec<u8>,
}

pub struct Pair {
    sides: [Side; 2],
    pub buffers: [Buffers; 2],
    pub tally: Tally,
    calls: u64,
    before: Vec<u8>,
    /// The buffers at another time, to go back to or to compare with.
    kept: [Buffers; 2],
}

const SIDES: [&str; 2] = ["library", "twin"];
const WAYS: [&str; 2] = ["in one call", "in two"];
const SALVAGED_TWICE: [&str; 2] = ["salvaged once", "salvaged twice"];
const WELL_FORMED: [&str; 2] = ["a well-formed table", "a salvaged one"];

impl Pair {
    /// The library first and the twin second, for so many calls.
    pub fn new(sides: [Side; 2], calls: u64) -> Pair {
        let (buffers, kept) = Default::default();
        Pair { sides, buffers, tally: Tally::default(), calls, before: Vec::new(), kept }
    }

    /// Fills the buffers of a new session with the same random octets on both sides.
    pub fn begin(&mut self, records: usize, random: &mut Random) {
        let [library, _] = &mut self.buffers;
        library.resize(records);
        random.fill(&mut library.table);
        random.fill(&mut library.store);
        self.make_equal();
    }

    /// Copies the library's buffers to the twin.
    pub fn make_equal(&mut self) {
        let [library, twin] = &mut self.buffers;
        twin.copy_from(library);
    }

    /// Fills output and words on both sides anew, so that what a call leaves alone is seen.
    pub fn refill(&mut self, random: &mut Random) {
        let (octet, word) = (random.octet(), random.word());
        for buffers in &mut self.buffers {
            buffers.out.fill(octet);
            buffers.words.fill(word);
        }
    }

    /// The number that both sides gave.
    pub fn play(&mut self, call: &Call) -> Result<u64, End> {
        if self.tally.calls >= self.calls {
            return Err(End::Enough);
        }
        self.before.clone_from(&self.buffers[0].table);
        let said = [0, 1].map(|side| asked(self.sides[side], call, &mut self.buffers[side]));
        let [library, twin] = &self.buffers;
        if let Some(difference) = differences::first(said, [library, twin]) {
            return Err(self.found(self.tally.calls + 1, call, SIDES, said, difference));
        }
        self.tally.count(call.kind, said[1]);
        if let (0, Some(row)) = (said[1].number, said[1].row) {
            self.tally.count_told(call.kind, row, library);
        }
        if call.kind == Kind::Salvage && said[1].number == 0 {
            self.tally.count_reasons(&twin.words);
        }
        self.show_progress();
        Ok(said[0].number)
    }

    /// Keeps the buffers as they are.
    pub fn keep(&mut self) {
        for (kept, buffers) in self.kept.iter_mut().zip(&self.buffers) {
            kept.copy_from(buffers);
        }
    }

    /// Goes on with the buffers that were kept, and keeps those of now.
    pub fn swap(&mut self) {
        std::mem::swap(&mut self.buffers, &mut self.kept);
    }

    /// The number and the buffers of the library must be what one call, whose buffers were kept, left.
    pub fn must_be_kept(&self, call: &Call, number: u64) -> Result<(), End> {
        self.must_be(&self.kept[0], call, number, WAYS)
    }

    /// The call is a second salvage: it must have changed nothing but the list of the one before, whose buffers were kept, to zeros.
    pub fn must_be_salvaged(&mut self, call: &Call, number: u64) -> Result<(), End> {
        self.kept[0].words[..SALVAGED].fill(0);
        self.must_be(&self.kept[0], call, number, SALVAGED_TWICE)
    }

    /// The call must not have been refused, so that the table that it was lent is well formed.
    pub fn must_be_accepted(&self, call: &Call, number: u64) -> Result<(), End> {
        self.must_be(&self.buffers[0], call, number, WELL_FORMED)
    }

    fn must_be(&self, expected: &Buffers, call: &Call, number: u64, names: [&'static str; 2]) -> Result<(), End> {
        let said = [0, number].map(|number| Said { number, row: None });
        match differences::first(said, [expected, &self.buffers[0]]) {
            Some(difference) => Err(self.found(self.tally.calls, call, names, said, difference)),
            None => Ok(()),
        }
    }

    fn found(&self, number: u64, call: &Call, names: [&'static str; 2], said: [Said; 2], difference: Difference) -> End {
        End::Different(Box::new(Found { number, call: call.to_string(), names, said, difference, table: self.before.clone() }))
    }

    fn show_progress(&self) {
        let made = self.tally.calls;
        if made % (self.calls / 10).max(PROGRESS) == 0 {
            say::err(&format!("{} of {} calls the same", with_commas(made), with_commas(self.calls)));
        }
    }
}

/// What a side says; a panic is a number of its own, so that the call is told like any other difference.
fn asked(side: Side, call: &Call, buffers: &mut Buffers) -> Said {
    let said = catch_unwind(AssertUnwindSafe(|| side(call, buffers)));
    said.unwrap_or(Said { number: differences::PANIC, row: None })
}
