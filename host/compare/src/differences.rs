//! Compares what two sides said and left behind, and tells the first difference.

use crate::buffers::Buffers;
use crate::sides::Said;
use kit::layout;
use std::fmt;

/// Stands for the number of a side that panicked.
pub const PANIC: u64 = u64::MAX;

/// Where the sides differ.
#[derive(Clone, Copy, Debug, PartialEq, Eq)]
pub enum Place {
    Number,
    Table(usize),
    Store(usize),
    Out(usize),
    Word(usize),
}

#[derive(Clone, Copy, Debug, PartialEq, Eq)]
pub struct Difference {
    pub place: Place,
    /// What either side has there.
    pub values: [u64; 2],
}

/// The first difference: in the number, then in the words, out, the table and the store.
pub fn first(said: [Said; 2], [left, right]: [&Buffers; 2]) -> Option<Difference> {
    let values = said.map(|said| said.number);
    if values[0] != values[1] {
        return Some(Difference { place: Place::Number, values });
    }
    in_words(&left.words, &right.words)
        .or_else(|| in_octets(Place::Out, &left.out, &right.out))
        .or_else(|| in_octets(Place::Table, &left.table, &right.table))
        .or_else(|| in_octets(Place::Store, &left.store, &right.store))
}

fn in_words(left: &[u64], right: &[u64]) -> Option<Difference> {
    if left == right {
        return None;
    }
    let at = (0..left.len()).find(|at| left[*at] != right[*at])?;
    Some(Difference { place: Place::Word(at), values: [left[at], right[at]] })
}

fn in_octets(place: fn(usize) -> Place, left: &[u8], right: &[u8]) -> Option<Difference> {
    if left == right {
        return None;
    }
    let at = (0..left.len()).find(|at| left[*at] != right[*at])?;
    Some(Difference { place: place(at), values: [left[at].into(), right[at].into()] })
}

impl fmt::Display for Place {
    fn fmt(&self, f: &mut fmt::Formatter) -> fmt::Result {
        match *self {
            Place::Number => write!(f, "the number"),
            Place::Word(at) => write!(f, "word {at} of answer, deadline, list, fields or part"),
            Place::Out(at) => write!(f, "octet {at} of the output"),
            Place::Store(at) => write!(f, "octet {at} of the store (cell {}, octet {})", at / layout::CELL, at % layout::CELL),
            Place::Table(at) => match at.checked_sub(layout::HEADER) {
                None => write!(f, "octet {at} of the table's header"),
                Some(past) => {
                    write!(f, "octet {at} of the table (record {}, octet {})", past / layout::RECORD, past % layout::RECORD)
                }
            },
        }
    }
}

impl Difference {
    /// In words, with the names of the sides.
    pub fn told(&self, [left, right]: [&str; 2]) -> String {
        let [one, other] = self.values.map(|value| match (self.place, value) {
            (Place::Number, PANIC) => "a panic".to_string(),
            _ => format!("{value} (hex {value:X})"),
        });
        format!("{}: {left} {one}, {right} {other}", self.place)
    }
}

#[cfg(test)]
mod tests {
    use super::*;

    const SAID: Said = Said { number: 0, row: None };

    fn equal() -> [Buffers; 2] {
        let mut buffers = Buffers::default();
        buffers.resize(2);
        [buffers.clone(), buffers]
    }

    /// The difference after the twin's buffers were changed.
    fn after(change: fn(&mut Buffers)) -> Option<Difference> {
        let mut buffers = equal();
        change(&mut buffers[1]);
        let [left, right] = &buffers;
        first([SAID, SAID], [left, right])
    }

    #[test]
    fn equal_sides_have_no_difference() {
        assert_eq!(after(|_| ()), None);
    }

    #[test]
    fn another_number_is_found() {
        let said = [SAID, Said { number: 9, row: None }];
        let [left, right] = &equal();
        assert_eq!(first(said, [left, right]), Some(Difference { place: Place::Number, values: [0, 9] }));
    }

    #[test]
    fn a_changed_octet_or_word_is_found_in_each_buffer_at_either_end() {
        let at = |change| after(change).map(|difference| difference.place);
        assert_eq!(at(|buffers| buffers.table[0] = 1), Some(Place::Table(0)));
        assert_eq!(at(|buffers| *buffers.table.last_mut().unwrap() = 1), Some(Place::Table(equal()[0].table.len() - 1)));
        assert_eq!(at(|buffers| buffers.store[2047] = 1), Some(Place::Store(2047)));
        assert_eq!(at(|buffers| *buffers.store.last_mut().unwrap() = 1), Some(Place::Store(equal()[0].store.len() - 1)));
        assert_eq!(at(|buffers| buffers.out[1028] = 1), Some(Place::Out(1028)));
        assert_eq!(at(|buffers| *buffers.out.last_mut().unwrap() = 1), Some(Place::Out(equal()[0].out.len() - 1)));
        assert_eq!(at(|buffers| buffers.words[0] = 1), Some(Place::Word(0)));
        assert_eq!(at(|buffers| *buffers.words.last_mut().unwrap() = 1), Some(Place::Word(equal()[0].words.len() - 1)));
    }

    #[test]
    fn a_difference_in_a_record_is_told_with_its_place_and_octet() {
        let difference = Difference { place: Place::Table(624 + 176 + 6), values: [17, 3] };
        let told = "octet 806 of the table (record 1, octet 6): library 17 (hex 11), twin 3 (hex 3)";
        assert_eq!(difference.told(["library", "twin"]), told);
    }
}
