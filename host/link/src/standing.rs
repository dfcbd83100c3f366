//! How far the request for a sampler is, in a line: `0042 asked 7 350`, `0042 cost 19 value NO2 41.2 ug/m3`.

use crate::outcome::{Aborted, Outcome, Why};
use crate::payload::{Concentration, Sampler};
use std::fmt;
use std::str::FromStr;
use wtp::{Abort, NonEmpty, Reason, Refused};

/// What the note of a sampler begins with.
pub const SAMPLER: &str = "sampler";

#[derive(Debug, Clone, PartialEq, Eq)]
pub enum Standing {
    ToAsk,
    Asked {
        tid: u16,
        since: u64,
    },
    /// Its outcome, and what that cost in octets.
    Known {
        outcome: Outcome,
        cost: u32,
    },
}

/// A sampler with its standing, as it was noted.
#[derive(Debug, PartialEq, Eq)]
pub struct Noted {
    pub sampler: Sampler,
    pub standing: Standing,
}

impl fmt::Display for Standing {
    fn fmt(&self, f: &mut fmt::Formatter<'_>) -> fmt::Result {
        match self {
            Standing::ToAsk => write!(f, "to-ask"),
            Standing::Asked { tid, since } => write!(f, "asked {tid} {since}"),
            Standing::Known { outcome, cost } => {
                write!(f, "cost {cost} ")?;
                write_outcome(outcome, f)
            }
        }
    }
}

fn write_outcome(outcome: &Outcome, f: &mut fmt::Formatter<'_>) -> fmt::Result {
    match outcome {
        Outcome::Value(value) => write!(f, "value {value}"),
        Outcome::EmptyResult => write!(f, "empty"),
        Outcome::Abort(Aborted::Shown(Abort::User(octet))) => write!(f, "user {octet}"),
        Outcome::Abort(Aborted::Shown(Abort::Provider(reason))) => write!(f, "provider {}", octet(*reason)),
        Outcome::Abort(Aborted::Unreadable(data)) => {
            write!(f, "unreadable ")?;
            data.iter().try_for_each(|octet| write!(f, "{octet:02X}"))
        }
        Outcome::NoAnswer(why) => match why {
            Why::NoResponse => write!(f, "no-response"),
            Why::GaveUp(waited) => write!(f, "gave-up {waited}"),
            Why::Interrupted => write!(f, "interrupted"),
            Why::NotAsked(refused) => write!(f, "not-asked {}", refused.number()),
            Why::NoPort => write!(f, "no-port"),
        },
    }
}

impl FromStr for Noted {
    type Err = ();

    fn from_str(line: &str) -> Result<Noted, ()> {
        let (sampler, standing) = line.split_once(' ').ok_or(())?;
        Ok(Noted { sampler: Sampler::of(sampler).map_err(drop)?, standing: standing_of(standing).ok_or(())? })
    }
}

/// The first word, and what follows it.
fn split(text: &str) -> (&str, Option<&str>) {
    text.split_once(' ').map_or((text, None), |(word, rest)| (word, Some(rest)))
}

fn standing_of(text: &str) -> Option<Standing> {
    match split(text) {
        ("to-ask", None) => Some(Standing::ToAsk),
        ("asked", Some(rest)) => {
            let (tid, since) = rest.split_once(' ')?;
            Some(Standing::Asked { tid: tid.parse().ok()?, since: since.parse().ok()? })
        }
        ("cost", Some(rest)) => {
            let (cost, outcome) = rest.split_once(' ')?;
            Some(Standing::Known { outcome: outcome_of(outcome)?, cost: cost.parse().ok()? })
        }
        _ => None,
    }
}

fn outcome_of(text: &str) -> Option<Outcome> {
    Some(match split(text) {
        ("value", Some(rest)) => Outcome::Value(Concentration::of(rest.as_bytes())?),
        ("empty", None) => Outcome::EmptyResult,
        ("user", Some(rest)) => Outcome::Abort(Aborted::Shown(Abort::User(rest.parse().ok()?))),
        ("provider", Some(rest)) => Outcome::Abort(Aborted::Shown(Abort::Provider(Reason::from(rest.parse::<u8>().ok()?)))),
        ("unreadable", Some(rest)) => Outcome::Abort(Aborted::Unreadable(NonEmpty::of(octets(rest)?)?)),
        (word, rest) => Outcome::NoAnswer(why_of(word, rest)?),
    })
}

fn why_of(word: &str, rest: Option<&str>) -> Option<Why> {
    match (word, rest) {
        ("no-response", None) => Some(Why::NoResponse),
        ("gave-up", Some(rest)) => rest.parse().ok().map(Why::GaveUp),
        ("interrupted", None) => Some(Why::Interrupted),
        ("not-asked", Some(rest)) => rest.parse().ok().map(|number| Why::NotAsked(Refused::of(number))),
        ("no-port", None) => Some(Why::NoPort),
        _ => None,
    }
}

/// The octet of a provider's reason.
fn octet(reason: Reason) -> u8 {
    (0..=u8::MAX).find(|octet| Reason::from(*octet) == reason).unwrap_or_default()
}

fn octets(hex: &str) -> Option<Vec<u8>> {
    let pairs = hex.as_bytes().chunks(2).map(|pair| std::str::from_utf8(pair).ok().filter(|pair| pair.len() == 2));
    pairs.map(|pair| u8::from_str_radix(pair?, 16).ok()).collect()
}

#[cfg(test)]
mod tests {
    use super::*;

    fn all() -> Vec<Standing> {
        let known = [
            Outcome::Value(Concentration::of(b"NO2 <0.5 ug/m3").unwrap()),
            Outcome::EmptyResult,
            Outcome::Abort(Aborted::Shown(Abort::User(255))),
            Outcome::Abort(Aborted::Unreadable(NonEmpty::of(vec![0, 0x41, 0xFF]).unwrap())),
            Outcome::NoAnswer(Why::NoResponse),
            Outcome::NoAnswer(Why::GaveUp(9_450)),
            Outcome::NoAnswer(Why::Interrupted),
            Outcome::NoAnswer(Why::NotAsked(Refused::TooLong)),
            Outcome::NoAnswer(Why::NotAsked(Refused::Unreadable)),
            Outcome::NoAnswer(Why::NoPort),
        ];
        let provider = (0..=255).map(|octet| Outcome::Abort(Aborted::Shown(Abort::Provider(Reason::from(octet)))));
        let others = [Standing::ToAsk, Standing::Asked { tid: 32_767, since: 1_000_000_000_000 }];
        let costs = [0, 16, u32::MAX].into_iter().cycle();
        let known = known.into_iter().chain(provider).zip(costs);
        others.into_iter().chain(known.map(|(outcome, cost)| Standing::Known { outcome, cost })).collect()
    }

    #[test]
    fn each_standing_is_read_as_it_was_written() {
        for standing in all() {
            let noted: Noted = format!("0042 {standing}").parse().unwrap();
            assert_eq!((noted.sampler.to_string(), noted.standing), ("0042".to_string(), standing));
        }
    }

    #[test]
    fn no_other_line_is_read() {
        let lines = ["", "0042", "0042 ", "0042 nothing", "0042 to-ask x", "0042 asked 7", "0042 asked 65536 1", "0042 empty"];
        let more = [
            "0042 cost",
            "0042 cost 19",
            "0042 cost empty",
            "0042 cost 4294967296 empty",
            "0042 cost 19 asked 7 350",
            "0042 cost 19 value 0",
            "0042 cost 19 empty 0",
            "0042 cost 19 user 256",
            "0042 cost 19 unreadable ",
            "0042 cost 19 unreadable 4",
            "0042 cost 19 unreadable 4G",
            "00 42 cost 19 empty",
            "? cost 19 empty",
        ];
        for line in lines.into_iter().chain(more) {
            assert!(line.parse::<Noted>().is_err(), "{line:?}");
        }
    }
}
