//! What the laboratory has for each sampler, from a file: `sampler,answer,detail`.

use crate::payload::{Concentration, Sampler};
use kit::csv::{self, wrong, Row};
use std::collections::HashMap;

const HEADER: [&str; 3] = ["sampler", "answer", "detail"];

/// What the gateway does when it is asked for a sampler. The last three are faults, to be looked at.
#[derive(Debug, Clone, PartialEq, Eq)]
pub enum Entry {
    Value(Concentration),
    /// The laboratory has nothing to report.
    Empty,
    /// The user's reason.
    Abort(u8),
    /// The gateway's user never answers.
    Silent,
    /// The Invoke is thrown away, as if it had never come.
    Unheard,
    /// The Result goes out malformed.
    Damaged,
}

#[derive(Debug, Default)]
pub struct Book(HashMap<Sampler, Entry>);

impl Book {
    pub fn read(file: &str) -> Result<Book, String> {
        Book::of(file, csv::read(file, HEADER)?)
    }

    fn of(file: &str, rows: Vec<Row<3>>) -> Result<Book, String> {
        let mut book = Book::default();
        for Row { number, cells: [sampler, answer, detail] } in rows {
            let named = |what: String| wrong(file, number, &what);
            let sampler = Sampler::of(&sampler).map_err(named)?;
            let entry = entry(&answer, &detail).map_err(named)?;
            if !book.enter(sampler.clone(), entry) {
                return Err(named(format!("the sampler {sampler} is there already")));
            }
        }
        Ok(book)
    }

    /// False where the sampler is there already.
    pub fn enter(&mut self, sampler: Sampler, entry: Entry) -> bool {
        self.0.insert(sampler, entry).is_none()
    }

    pub fn entry(&self, sampler: &Sampler) -> Option<&Entry> {
        self.0.get(sampler)
    }

    pub fn len(&self) -> usize {
        self.0.len()
    }

    pub fn is_empty(&self) -> bool {
        self.0.is_empty()
    }
}

fn entry(answer: &str, detail: &str) -> Result<Entry, String> {
    let without_detail = match answer {
        "value" => return value(detail),
        "abort" => return abort(detail),
        "empty" => Entry::Empty,
        "silent" => Entry::Silent,
        "unheard" => Entry::Unheard,
        "damaged" => Entry::Damaged,
        other => return Err(format!("the answer {other:?} isn't value, empty, abort, silent, unheard or damaged")),
    };
    if detail.is_empty() {
        Ok(without_detail)
    } else {
        Err(format!("the answer {answer} has no detail, but {detail:?} is there"))
    }
}

fn value(detail: &str) -> Result<Entry, String> {
    let value = Concentration::of(detail.as_bytes());
    value.map(Entry::Value).ok_or_else(|| format!("{detail:?} isn't a value such as NO2 41.2 ug/m3"))
}

fn abort(detail: &str) -> Result<Entry, String> {
    detail.parse().map(Entry::Abort).map_err(|_| format!("the reason {detail:?} isn't a number from 0 to 255"))
}

#[cfg(test)]
mod tests {
    use super::*;

    fn book(lines: &str) -> Result<Book, String> {
        let octets = format!("sampler,answer,detail\n{lines}");
        Book::of("r.csv", csv::rows("r.csv", octets.as_bytes(), HEADER)?)
    }

    #[test]
    fn each_answer_is_read() {
        let lines = "1,value,NO2 41.2 ug/m3\n2,empty,\n3,abort,255\n4,silent,\n5,unheard,\n6,damaged,\n";
        let book = book(lines).unwrap();
        let entry = |number| book.entry(&Sampler::of(number).unwrap()).cloned();
        assert_eq!(entry("1"), Concentration::of(b"NO2 41.2 ug/m3").map(Entry::Value));
        assert_eq!((entry("2"), entry("3")), (Some(Entry::Empty), Some(Entry::Abort(255))));
        assert_eq!((entry("4"), entry("5")), (Some(Entry::Silent), Some(Entry::Unheard)));
        assert_eq!((entry("6"), entry("7")), (Some(Entry::Damaged), None));
    }

    #[test]
    fn a_wrong_line_is_named_with_its_number() {
        let cases = [
            ("1,value,", "\"\" isn't a value such as NO2 41.2 ug/m3"),
            ("1,value,41.2", "\"41.2\" isn't a value such as NO2 41.2 ug/m3"),
            ("1,empty,0", "the answer empty has no detail, but \"0\" is there"),
            ("1,abort,256", "the reason \"256\" isn't a number from 0 to 255"),
            ("1,,", "the answer \"\" isn't value, empty, abort, silent, unheard or damaged"),
            (",empty,", "the sampler number is missing"),
            ("1234567890123,empty,", "the sampler number is too long: at most 12 characters"),
            ("9,abort,1", "the sampler 9 is there already"),
        ];
        for (line, what) in cases {
            assert_eq!(book(&format!("9,empty,\n{line}\n")).unwrap_err(), format!("r.csv, line 3: {what}"));
        }
    }
}
