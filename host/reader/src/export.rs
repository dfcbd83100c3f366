//! The outcomes for other programs, as CSV: each in a column of its own, and a value for VALUE alone.

use crate::samplers::{Ended, Scanned};
use kit::csv::line;
use link::outcome::Outcome;

const HEADER: [&str; 6] = ["sampler", "site", "outcome", "value", "detail", "octets"];

/// A line for each sampler, in the order of the file.
pub fn text(all: &[Ended]) -> String {
    let rows = all.iter().map(|Ended { scanned: Scanned { sampler, site }, outcome, cost }| {
        let (value, detail) = match outcome {
            Outcome::Value(value) => (value.to_string(), String::new()),
            Outcome::EmptyResult | Outcome::Abort(_) | Outcome::NoAnswer(_) => (String::new(), outcome.to_string()),
        };
        line([&sampler.to_string(), site, &outcome.kind().to_string(), &value, &detail, &cost.to_string()])
    });
    std::iter::once(line(HEADER)).chain(rows).collect()
}

#[cfg(test)]
mod tests {
    use super::*;
    use link::outcome::{Aborted, Why};
    use link::payload::Concentration;
    use wtp::{Abort, NonEmpty};

    #[test]
    fn only_a_value_fills_the_column_of_values() {
        let unreadable = NonEmpty::of(b"NO2 0, \"0\"".to_vec()).unwrap();
        let all = [
            Ended::of("001", "Quay", Outcome::Value(Concentration::of(b"NO2 <0.5 ug/m3").unwrap()), 16),
            Ended::of("002", "Pier \"B\"", Outcome::EmptyResult, 19),
            Ended::of("003", "Gate", Outcome::Abort(Aborted::Shown(Abort::User(2))), 16),
            Ended::of("004", "Mill", Outcome::Abort(Aborted::Unreadable(unreadable)), 32),
            Ended::of("005", "Old Foundry", Outcome::NoAnswer(Why::Interrupted), 0),
        ];
        let expected = r#"sampler,site,outcome,value,detail,octets
001,Quay,VALUE,NO2 <0.5 ug/m3,,16
002,"Pier ""B""",EMPTY RESULT,,"the laboratory answered, with no data",19
003,Gate,ABORT,,by the user: the analysis isn't finished (reason 2),16
004,Mill,ABORT,,"by the user, this reader: the result can't be read (reason 14): ""NO2 0, \""0\""""",32
005,Old Foundry,NO ANSWER,,interrupted before one came,0
"#;
        assert_eq!(text(&all), expected);
    }
}
