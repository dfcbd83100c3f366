//! How the request for a sampler ended. There are four outcomes, and none is ever shown as another.

use crate::payload::{escaped, Concentration};
use crate::reason;
use std::fmt;
use wtp::{Abort, NonEmpty, Reason, Refused, Shown};

#[derive(Debug, Clone, PartialEq, Eq)]
pub enum Outcome {
    Value(Concentration),
    EmptyResult,
    Abort(Aborted),
    NoAnswer(Why),
}

#[derive(Debug, Clone, PartialEq, Eq)]
pub enum Aborted {
    /// As the library showed it.
    Shown(Abort),
    /// By this reader, since a result came that is no concentration.
    Unreadable(NonEmpty),
}

/// Why no answer came.
#[derive(Debug, Clone, Copy, PartialEq, Eq)]
pub enum Why {
    /// This end's timer used up RCR.
    NoResponse,
    /// This reader's patience was at its end, say after a hold-on, which stops the timer; so many milliseconds passed.
    GaveUp(u64),
    Interrupted,
    /// The library didn't take the request.
    NotAsked(Refused),
    /// No port is reserved at the gateway (RDS), or none any more.
    NoPort,
}

/// What made the library show something: a PDU that came, or this end's own timer.
#[derive(Debug, Clone, Copy, PartialEq, Eq)]
pub enum Cause {
    Received,
    Timer,
}

/// The name of an outcome, without its details.
#[derive(Debug, Clone, Copy, PartialEq, Eq)]
pub enum Kind {
    Value,
    EmptyResult,
    Abort,
    NoAnswer,
}

impl Kind {
    pub const ALL: [Kind; 4] = [Kind::Value, Kind::EmptyResult, Kind::Abort, Kind::NoAnswer];
}

impl fmt::Display for Kind {
    fn fmt(&self, f: &mut fmt::Formatter<'_>) -> fmt::Result {
        f.pad(match self {
            Kind::Value => "VALUE",
            Kind::EmptyResult => "EMPTY RESULT",
            Kind::Abort => "ABORT",
            Kind::NoAnswer => "NO ANSWER",
        })
    }
}

impl Outcome {
    /// The outcome that an indication is; none where it ends nothing.
    pub fn of(shown: &Shown, cause: Cause) -> Option<Outcome> {
        match shown {
            Shown::Result { data, .. } => Some(match Concentration::of(data) {
                Some(value) => Outcome::Value(value),
                None => Outcome::Abort(Aborted::Unreadable(data.clone())),
            }),
            Shown::EmptyResult { .. } => Some(Outcome::EmptyResult),
            // A peer can send this abort too: then it did answer.
            Shown::Abort { by: Abort::Provider(Reason::NoResponse), .. } if cause == Cause::Timer => {
                Some(Outcome::NoAnswer(Why::NoResponse))
            }
            Shown::Abort { by, .. } => Some(Outcome::Abort(Aborted::Shown(*by))),
            Shown::Invoke { .. } | Shown::Confirmation { .. } => None,
        }
    }

    pub fn kind(&self) -> Kind {
        match self {
            Outcome::Value(_) => Kind::Value,
            Outcome::EmptyResult => Kind::EmptyResult,
            Outcome::Abort(_) => Kind::Abort,
            Outcome::NoAnswer(_) => Kind::NoAnswer,
        }
    }

    /// Whether the laboratory answered the question.
    pub fn is_answered(&self) -> bool {
        matches!(self, Outcome::Value(_) | Outcome::EmptyResult)
    }
}

/// The details that stand beside the outcome's name.
impl fmt::Display for Outcome {
    fn fmt(&self, f: &mut fmt::Formatter<'_>) -> fmt::Result {
        match self {
            Outcome::Value(value) => write!(f, "{value}"),
            Outcome::EmptyResult => write!(f, "the laboratory answered, with no data"),
            // So that it isn't taken for the abort of this end's timer.
            Outcome::Abort(Aborted::Shown(by @ Abort::Provider(Reason::NoResponse))) => {
                write!(f, "{} (the gateway sent it: its user didn't answer)", reason::of_abort(*by))
            }
            Outcome::Abort(Aborted::Shown(by)) => write!(f, "{}", reason::of_abort(*by)),
            Outcome::Abort(Aborted::Unreadable(data)) => {
                write!(f, "by the user, this reader: {}: {}", reason::words(reason::UNREADABLE), escaped(data))
            }
            Outcome::NoAnswer(why) => write!(f, "{why}"),
        }
    }
}

impl fmt::Display for Why {
    fn fmt(&self, f: &mut fmt::Formatter<'_>) -> fmt::Result {
        match self {
            Why::NoResponse => write!(f, "none came after the last repeat (abort, provider, no response)"),
            Why::GaveUp(waited) => write!(f, "none came in {waited} ms (abort, user, this reader gave up)"),
            Why::Interrupted => write!(f, "interrupted before one came"),
            Why::NotAsked(refused) => write!(f, "not asked: {refused}"),
            Why::NoPort => write!(f, "no port is reserved at the gateway"),
        }
    }
}

#[cfg(test)]
mod tests {
    use super::*;
    use wtp::{Name, Role};

    const OF: Name = Name { role: Role::Initiator, peer: 0, tid: 5 };

    fn result(octets: &[u8]) -> Shown {
        NonEmpty::of(octets.to_vec()).map_or(Shown::EmptyResult { of: OF }, |data| Shown::Result { of: OF, data })
    }

    fn abort(by: Abort) -> Shown {
        Shown::Abort { of: OF, by }
    }

    fn line(shown: Shown, cause: Cause) -> String {
        let outcome = Outcome::of(&shown, cause).unwrap();
        format!("{} {outcome}", outcome.kind())
    }

    #[test]
    fn the_four_outcomes_are_different_lines() {
        assert_eq!(line(result(b"NO2 41.2 ug/m3"), Cause::Received), "VALUE NO2 41.2 ug/m3");
        assert_eq!(line(result(b""), Cause::Received), "EMPTY RESULT the laboratory answered, with no data");
        let user = line(abort(Abort::User(2)), Cause::Received);
        assert_eq!(user, "ABORT by the user: the analysis isn't finished (reason 2)");
        let none = line(abort(Abort::Provider(Reason::NoResponse)), Cause::Timer);
        assert_eq!(none, "NO ANSWER none came after the last repeat (abort, provider, no response)");
    }

    #[test]
    fn no_response_that_a_peer_sent_is_an_abort() {
        let sent = line(abort(Abort::Provider(Reason::NoResponse)), Cause::Received);
        assert_eq!(sent, "ABORT by the provider: no response (the gateway sent it: its user didn't answer)");
    }

    #[test]
    fn a_result_that_cannot_be_read_is_no_value() {
        let shown = line(result(b"\x00\xFF"), Cause::Received);
        assert_eq!(shown, r#"ABORT by the user, this reader: the result can't be read (reason 14): "\x00\xff""#);
    }

    #[test]
    fn only_the_laboratorys_answers_count_as_answered() {
        let answered = |shown, cause| Outcome::of(&shown, cause).map(|outcome| outcome.is_answered());
        assert_eq!(answered(result(b"NO2 1 u"), Cause::Received), Some(true));
        assert_eq!(answered(result(b""), Cause::Received), Some(true));
        assert_eq!(answered(result(b"?"), Cause::Received), Some(false));
        assert_eq!(answered(abort(Abort::User(0)), Cause::Received), Some(false));
        assert!(!Outcome::NoAnswer(Why::Interrupted).is_answered());
    }
}
