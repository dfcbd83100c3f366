//! The samplers that were scanned, from a file: `sampler,site`.

use kit::csv::{self, wrong, Row};
use link::outcome::Outcome;
use link::payload::Sampler;
use std::collections::HashSet;

const HEADER: [&str; 2] = ["sampler", "site"];
const LONGEST_SITE: usize = 24;

#[derive(Debug, Clone, PartialEq, Eq)]
pub struct Scanned {
    pub sampler: Sampler,
    pub site: String,
}

/// A sampler with the outcome of its request, and the octets that this cost.
#[derive(Debug, Clone, PartialEq, Eq)]
pub struct Ended {
    pub scanned: Scanned,
    pub outcome: Outcome,
    pub cost: u32,
}

#[cfg(test)]
impl Ended {
    pub fn of(number: &str, site: &str, outcome: Outcome, cost: u32) -> Ended {
        Ended { scanned: Scanned { sampler: Sampler::of(number).unwrap(), site: site.into() }, outcome, cost }
    }
}

pub fn read(file: &str) -> Result<Vec<Scanned>, String> {
    of(file, csv::read(file, HEADER)?)
}

fn of(file: &str, rows: Vec<Row<2>>) -> Result<Vec<Scanned>, String> {
    let mut seen = HashSet::new();
    let mut all = Vec::new();
    for Row { number, cells: [sampler, site] } in rows {
        let sampler = Sampler::of(&sampler).map_err(|what| wrong(file, number, &what))?;
        if !seen.insert(sampler.clone()) {
            return Err(wrong(file, number, &format!("the sampler {sampler} is there already")));
        }
        if !(1..=LONGEST_SITE).contains(&site.chars().count()) {
            return Err(wrong(file, number, &format!("the site must have 1 to {LONGEST_SITE} characters")));
        }
        all.push(Scanned { sampler, site });
    }
    if all.is_empty() {
        return Err(format!("{file}: there is no sampler in it"));
    }
    Ok(all)
}

#[cfg(test)]
mod tests {
    use super::*;

    fn read(lines: &str) -> Result<Vec<Scanned>, String> {
        let octets = format!("sampler,site\n{lines}");
        of("s.csv", csv::rows("s.csv", octets.as_bytes(), HEADER)?)
    }

    #[test]
    fn samplers_keep_their_order_and_their_zeros() {
        let samplers = read("0042,Market Street\n7,Quay\n").unwrap();
        assert_eq!(samplers.iter().map(|row| row.sampler.to_string()).collect::<Vec<_>>(), ["0042", "7"]);
    }

    #[test]
    fn a_wrong_line_is_named_with_its_number() {
        let cases = [
            ("1,a\n1,b\n", "s.csv, line 3: the sampler 1 is there already"),
            ("1,a\n\n2,\n", "s.csv, line 4: the site must have 1 to 24 characters"),
            ("1 2,a\n", "s.csv, line 2: the sampler number \"1 2\" may have only letters, digits and hyphens"),
            ("1234567890123,a\n", "s.csv, line 2: the sampler number is too long: at most 12 characters"),
            ("1\n", "s.csv, line 2: 2 cells are expected, 1 are there"),
            ("", "s.csv: there is no sampler in it"),
        ];
        for (lines, message) in cases {
            assert_eq!(read(lines).unwrap_err(), message);
        }
    }
}
