//! Counts calls, the rows and conditions that they reached, and their numbers.

use super::call::Kind;
use kit::with_commas;
use rds_twin::{Row, Said};
use std::collections::BTreeMap;
use std::fmt;

/// The numbers that each call can give; `ports_bytes` gives none.
const OUTCOMES: [(&str, &[u64]); 11] = [
    ("read", &[0, 1, 16]),
    ("take", &[0, 1, 16]),
    ("write", &[0, 1, 16]),
    ("put", &[0, 1, 10, 11]),
    ("ports_fresh", &[0, 1, 10]),
    ("reserve", &[0, 1, 9, 10, 11]),
    ("release", &[0, 1, 8, 9]),
    ("again", &[0, 1, 8]),
    ("abandon", &[0, 1, 8]),
    ("receive", &[0, 1, 16]),
    ("port", &[0, 1, 10]),
];

#[derive(Default)]
pub struct Tally {
    pub calls: u64,
    rows: BTreeMap<Row, u64>,
    outcomes: BTreeMap<(&'static str, u64), u64>,
}

impl Tally {
    pub fn count(&mut self, kind: Kind, said: Said) {
        self.calls += 1;
        *self.outcomes.entry((kind.name(), said.number)).or_insert(0) += 1;
        if let Some(row) = said.row {
            *self.rows.entry(row).or_insert(0) += 1;
        }
    }

    /// Each row, condition and number in words, with its count.
    fn all(&self) -> Vec<(String, u64)> {
        let rows = Row::all().into_iter().map(|row| (row.name(), self.rows.get(&row).copied().unwrap_or(0)));
        let numbers = OUTCOMES.iter().flat_map(|(call, numbers)| numbers.iter().map(move |number| (*call, *number)));
        let outcomes = numbers.map(|outcome| (told(outcome), self.outcomes.get(&outcome).copied().unwrap_or(0)));
        rows.chain(outcomes).collect()
    }

    pub fn never_reached(&self) -> Vec<String> {
        self.all().into_iter().filter(|(_, count)| *count == 0).map(|(name, _)| name).collect()
    }

    pub fn rows_reached(&self) -> String {
        format!("{} of {} rows and conditions reached", self.rows.len(), Row::all().len())
    }
}

fn told((call, number): (&str, u64)) -> String {
    match number {
        0 => format!("rds_{call} accepted"),
        _ => format!("rds_{call} refused {number}"),
    }
}

impl fmt::Display for Tally {
    fn fmt(&self, f: &mut fmt::Formatter) -> fmt::Result {
        self.all().into_iter().try_for_each(|(name, count)| writeln!(f, "{:>11}  {name}", with_commas(count)))
    }
}

#[cfg(test)]
mod tests {
    use super::*;

    #[test]
    fn what_was_never_counted_is_named() {
        let mut tally = Tally::default();
        let all = tally.never_reached().len();
        assert_eq!(all, 33 + 37);
        tally.count(Kind::Again, Said { number: 0, row: Some(Row::Ours(3)) });
        assert_eq!(tally.never_reached().len(), all - 2);
        assert!(tally.never_reached().contains(&"rds_again refused 8".to_string()));
    }
}
