//! What the reader prints: a line for each sampler, and a summary.

use crate::samplers::{Ended, Scanned};
use link::outcome::Kind;
use std::fmt::Write;

/// The table of outcomes, in the order of the file. What a request cost stands before its outcome, so that it isn't taken for a value.
pub fn table(all: &[Ended]) -> String {
    let widest = all.iter().map(|ended| ended.scanned.site.chars().count()).max().unwrap_or(0).max("SITE".len());
    let mut text = line(["SAMPLER", "SITE", "OCTETS", "OUTCOME", "DETAIL"], widest);
    for Ended { scanned: Scanned { sampler, site }, outcome, cost } in all {
        let [sampler, cost] = [sampler.to_string(), cost.to_string()];
        text.push('\n');
        text.push_str(&line([&sampler, site, &cost, &outcome.kind().to_string(), &outcome.to_string()], widest));
    }
    text
}

fn line([sampler, site, cost, kind, detail]: [&str; 5], widest: usize) -> String {
    format!("{sampler:<12}  {site:<widest$}  {cost:>6}  {kind:<12}  {detail}")
}

/// How many there are of each outcome, and of all of them, and what all together cost. A count comes first, so that none looks like a
/// value.
pub fn summary(ended: &[Ended]) -> String {
    let all = ended.len();
    let mut text = String::new();
    for kind in Kind::ALL {
        let count = ended.iter().filter(|ended| ended.outcome.kind() == kind).count();
        let _ = writeln!(text, "{count:>5} of {all} samplers: {kind}");
    }
    let _ = writeln!(text, "{all:>5} of {all} samplers have an outcome");
    let cost: u64 = ended.iter().map(|ended| u64::from(ended.cost)).sum();
    let _ = write!(text, "{cost:>5} octets were sent for them, up to their outcomes");
    text
}

#[cfg(test)]
mod tests {
    use super::*;
    use link::outcome::{Aborted, Outcome, Why};
    use link::payload::Concentration;
    use wtp::Abort;

    fn all() -> [Ended; 4] {
        [
            Ended::of("1", "Quay", Outcome::Value(Concentration::of(b"NO2 41.2 ug/m3").unwrap()), 16),
            Ended::of("22", "Bürgerstraße 5", Outcome::EmptyResult, 9_252),
            Ended::of("333", "x", Outcome::Abort(Aborted::Shown(Abort::User(2))), 19),
            Ended::of("4", "y", Outcome::NoAnswer(Why::Interrupted), 0),
        ]
    }

    #[test]
    fn the_columns_are_aligned() {
        let expected = "\
SAMPLER       SITE            OCTETS  OUTCOME       DETAIL
1             Quay                16  VALUE         NO2 41.2 ug/m3
22            Bürgerstraße 5    9252  EMPTY RESULT  the laboratory answered, with no data
333           x                   19  ABORT         by the user: the analysis isn't finished (reason 2)
4             y                    0  NO ANSWER     interrupted before one came";
        assert_eq!(table(&all()), expected);
    }

    #[test]
    fn the_summary_counts_every_sampler_and_every_octet() {
        let expected = "    1 of 4 samplers: VALUE
    1 of 4 samplers: EMPTY RESULT
    1 of 4 samplers: ABORT
    1 of 4 samplers: NO ANSWER
    4 of 4 samplers have an outcome
 9287 octets were sent for them, up to their outcomes";
        assert_eq!(summary(&all()), expected);
    }
}
