//! Counts the rows and outcomes that were reached, and knows which were never reached.

use crate::buffers::Buffers;
use crate::calls::Kind;
use crate::costs::Costs;
use crate::items::Items;
use crate::sides::Said;
use kit::with_commas;
use std::collections::BTreeMap;
use std::fmt;
use twin::Row;

/// The outcomes that each call without rows can have.
const OUTCOMES: [(&str, &[u64]); 7] = [
    ("fresh", &[0, 1, 10]),
    ("read", &[0, 1, 11, 101, 102, 103, 104, 105, 106, 107]),
    ("write", &[0, 1, 11, 101, 102, 103, 104, 105, 106, 107]),
    ("separate", &[0, 1, 11]),
    ("join", &[0, 1, 11]),
    ("read_part", &[0, 1, 11, 101, 102, 103, 104, 105, 106, 107]),
    ("data", &[0, 1, 11]),
];

/// Why salvage changes a place.
const REASONS: [(u64, &str); 3] = [
    (1, "salvage, reason 1: a field out of range"),
    (2, "salvage, reason 2: free and not zero"),
    (3, "salvage, reason 3: the name of a lower place"),
];

#[derive(Default)]
pub struct Tally {
    pub calls: u64,
    rows: BTreeMap<Row, u64>,
    reasons: BTreeMap<u64, u64>,
    outcomes: BTreeMap<(&'static str, u64), u64>,
    items: Items,
    costs: Costs,
}

impl Tally {
    pub fn count(&mut self, kind: Kind, said: Said) {
        self.calls += 1;
        if let Some(row) = said.row {
            *self.rows.entry(row).or_insert(0) += 1;
        }
        if let Some(call) = kind.without_rows() {
            *self.outcomes.entry((call, said.number)).or_insert(0) += 1;
        }
    }

    /// Counts what an accepted call of this row told and sent of unknown items, and what it told of a cost.
    pub fn count_told(&mut self, kind: Kind, row: Row, left: &Buffers) {
        // The words of a deadline and of a list are no answer.
        if !matches!(kind, Kind::Deadline | Kind::Salvage) {
            self.items.count(kind, row, left);
            self.costs.count(row, left);
        }
    }

    /// Counts the places of a list that salvage wrote, by their reasons.
    pub fn count_reasons(&mut self, list: &[u64]) {
        let places = usize::try_from(list[0]).unwrap_or(usize::MAX);
        for entry in list[1..].chunks_exact(2).take(places) {
            *self.reasons.entry(entry[1]).or_insert(0) += 1;
        }
    }

    fn row(&self, row: Row) -> u64 {
        self.rows.get(&row).copied().unwrap_or(0)
    }

    /// Each outcome in words with its count.
    fn outcomes(&self) -> impl Iterator<Item = (String, u64)> + '_ {
        let all = OUTCOMES.iter().flat_map(|(call, numbers)| numbers.iter().map(move |number| (*call, *number)));
        let numbers = all.map(|(call, number)| {
            (format!("{call} {}", outcome(number)), self.outcomes.get(&(call, number)).copied().unwrap_or(0))
        });
        let reasons = REASONS.iter().map(|(reason, name)| (name.to_string(), self.reasons.get(reason).copied().unwrap_or(0)));
        numbers.chain(reasons)
    }

    pub fn rows_reached(&self) -> usize {
        Row::ALL.iter().filter(|row| self.row(**row) > 0).count()
    }

    /// The names of all rows and outcomes that no call reached.
    pub fn never_reached(&self) -> Vec<String> {
        let rows = Row::ALL.iter().filter(|row| self.row(**row) == 0).map(|row| row.name().to_string());
        let outcomes = self.outcomes().filter(|(_, count)| *count == 0).map(|(name, _)| name);
        rows.chain(outcomes).chain(self.items.never_reached()).chain(self.costs.never_reached()).collect()
    }
}

/// A number of the codec in words.
fn outcome(number: u64) -> String {
    match number {
        0 => "accepted".to_string(),
        101..=107 => format!("D{}", number - 100),
        _ => format!("refused {number}"),
    }
}

impl fmt::Display for Tally {
    fn fmt(&self, f: &mut fmt::Formatter) -> fmt::Result {
        Row::ALL.iter().try_for_each(|row| writeln!(f, "{:>11}  {}", with_commas(self.row(*row)), row.name()))?;
        self.outcomes().try_for_each(|(name, count)| writeln!(f, "{:>11}  {name}", with_commas(count)))?;
        let told = self.items.all().chain(self.costs.all());
        told.into_iter().try_for_each(|(name, count)| writeln!(f, "{:>11}  {name}", with_commas(count)))
    }
}

#[cfg(test)]
mod tests {
    use super::*;

    #[test]
    fn what_was_never_counted_is_named() {
        let mut tally = Tally::default();
        let all = Row::ALL.len() + 45;
        assert_eq!(tally.never_reached().len(), all);
        tally.count(Kind::Timer { now: 0 }, Said { number: 0, row: Some(Row::ALL[0]) });
        tally.count(Kind::Read, Said { number: 104, row: None });
        assert_eq!(tally.calls, 2);
        assert_eq!(tally.rows_reached(), 1);
        let missing = tally.never_reached();
        assert_eq!(missing.len(), all - 2);
        assert!(!missing.contains(&"read D4".to_string()));
        tally.count_reasons(&[2, 0, 3, 4, 3, 9, 2]);
        assert_eq!(tally.never_reached().len(), all - 3, "what is past the places isn't counted");
        assert!(missing.contains(&"write D4".to_string()));
        assert!(missing.contains(&"fresh refused 10".to_string()));
    }

    #[test]
    fn a_deadline_and_a_list_of_salvaged_places_tell_no_items_and_no_cost() {
        let mut left = Buffers::default();
        left.resize(1);
        left.words.fill(1);
        left.out.fill(0x18);
        let told = |kind, row| {
            let mut tally = Tally::default();
            tally.count_told(kind, row, &left);
            tally.to_string().matches("a cost told").count() + tally.to_string().matches("an Error item sent").count()
        };
        assert_eq!(told(Kind::Deadline, Row::DeadlineTold), 0);
        assert_eq!(told(Kind::Salvage, Row::SalvageChanged), 0);
        assert_eq!(told(Kind::Timer { now: 0 }, Row::IWaitTimeoutTimer), 2);
    }
}
