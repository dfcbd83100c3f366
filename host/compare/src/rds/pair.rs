//! Plays each call on both sides, which started with equal buffers, and stops at the first difference.

use super::books::BOOK;
use super::call::{Call, Sizes};
use super::sides::Side;
use super::tally::Tally;
use crate::differences::PANIC;
use kit::Random;
use rds::ffi::{FIELDS, OUTPUT};
use rds_twin::Said;
use std::fmt::Write;
use std::panic::{catch_unwind, AssertUnwindSafe};

/// Octets and words past what a call is lent, so that a write past the end is seen too.
const PAST: usize = 4;

/// The buffers of one side.
#[derive(Clone, PartialEq, Eq)]
pub struct Buffers {
    pub book: Vec<u8>,
    pub out: Vec<u8>,
    /// Fields, part or answer.
    pub words: Vec<u64>,
}

impl Buffers {
    fn new() -> Buffers {
        Buffers { book: vec![0; BOOK + PAST], out: vec![0; OUTPUT + PAST], words: vec![0; FIELDS + PAST] }
    }

    /// The parts of the buffers that a call is lent: book, output and words.
    pub fn lend(&mut self, sizes: Sizes) -> (&mut [u8], &mut [u8], &mut [u64]) {
        (&mut self.book[..sizes.book], &mut self.out[..sizes.out], &mut self.words[..sizes.words])
    }
}

pub struct Pair {
    sides: [Side; 2],
    pub buffers: [Buffers; 2],
    pub tally: Tally,
    /// The book that the latest call was lent.
    before: Vec<u8>,
}

impl Pair {
    /// The library first and the twin second.
    pub fn new(sides: [Side; 2]) -> Pair {
        Pair { sides, buffers: [Buffers::new(), Buffers::new()], tally: Tally::default(), before: Vec::new() }
    }

    /// The number that both sides gave, or a difference in words. Output and words are filled anew before the call, so that what
    /// it leaves alone is seen.
    pub fn play(&mut self, random: &mut Random, call: &Call) -> Result<u64, String> {
        let (octet, word) = (random.octet(), random.word());
        for buffers in &mut self.buffers {
            buffers.out.fill(octet);
            buffers.words.fill(word);
        }
        self.before.clone_from(&self.buffers[0].book);
        let said = [0, 1].map(|side| asked(self.sides[side], call, &mut self.buffers[side]));
        if said[0].number != said[1].number || self.buffers[0] != self.buffers[1] {
            return Err(self.told(call, said));
        }
        self.tally.count(call.kind, said[1]);
        Ok(said[0].number)
    }

    pub fn book(&self) -> &[u8] {
        &self.buffers[0].book[..BOOK]
    }

    pub fn set_book(&mut self, book: &[u8]) {
        self.buffers.iter_mut().for_each(|buffers| buffers.book[..BOOK].copy_from_slice(book));
    }

    fn told(&self, call: &Call, said: [Said; 2]) -> String {
        let number = |said: Said| if said.number == PANIC { "a panic".to_string() } else { said.number.to_string() };
        let mut told = format!("call {}: {call}\n", self.tally.calls + 1);
        let _ = writeln!(told, "  numbers: library {}, twin {}", number(said[0]), number(said[1]));
        if let Some(row) = said[1].row {
            let _ = writeln!(told, "  row of the twin: {}", row.name());
        }
        let [library, twin] = &self.buffers;
        tell(&mut told, "word", &library.words, &twin.words);
        tell(&mut told, "octet of the output", &library.out, &twin.out);
        tell(&mut told, "octet of the book", &library.book, &twin.book);
        let kept = self.before.iter().enumerate().filter(|(_, octet)| **octet != 0);
        let _ = write!(told, "  the book before, octets that aren't 0:");
        kept.into_iter().for_each(|(at, octet)| told += &format!(" {at}={octet:02X}"));
        told
    }
}

/// The first place at which the two differ.
fn tell<T: Copy + PartialEq + std::fmt::Display>(told: &mut String, what: &str, library: &[T], twin: &[T]) {
    let different = library.iter().zip(twin).enumerate().find(|(_, (library, twin))| library != twin);
    if let Some((at, (library, twin))) = different {
        let _ = writeln!(told, "  {what} {at}: library {library}, twin {twin}");
    }
}

/// What a side says; a panic is a number of its own, so that the call is told like any other difference.
fn asked(side: Side, call: &Call, buffers: &mut Buffers) -> Said {
    let said = catch_unwind(AssertUnwindSafe(|| side(call, buffers)));
    said.unwrap_or(Said { number: PANIC, row: None })
}
