//! The reasons of a user in words. The octet is the user's own, and these are the ones of reader and laboratory.

use wtp::Abort;

pub const SEAL_BROKEN: u8 = 1;
pub const NOT_FINISHED: u8 = 2;
pub const ANALYSIS_FAILED: u8 = 3;
pub const NOT_KNOWN: u8 = 10;
pub const NOT_A_REQUEST: u8 = 11;
pub const STOPPED: u8 = 12;
pub const GAVE_UP: u8 = 13;
pub const UNREADABLE: u8 = 14;

const WORDS: [(u8, &str); 8] = [
    (SEAL_BROKEN, "the sampler's seal was broken"),
    (NOT_FINISHED, "the analysis isn't finished"),
    (ANALYSIS_FAILED, "the analysis failed"),
    (NOT_KNOWN, "the laboratory doesn't know the sampler"),
    (NOT_A_REQUEST, "that is no request for a sampler"),
    (STOPPED, "the program was stopped"),
    (GAVE_UP, "the other end was waited for too long"),
    (UNREADABLE, "the result can't be read"),
];

/// A user's reason in words, with its octet.
pub fn words(octet: u8) -> String {
    match WORDS.iter().find(|row| row.0 == octet) {
        Some(row) => format!("{} (reason {octet})", row.1),
        None => format!("reason {octet}, which has no words here"),
    }
}

/// Who aborted, and why.
pub fn of_abort(by: Abort) -> String {
    match by {
        Abort::Provider(reason) => format!("by the provider: {reason}"),
        Abort::User(octet) => format!("by the user: {}", words(octet)),
    }
}

#[cfg(test)]
mod tests {
    use super::*;
    use wtp::Reason;

    #[test]
    fn provider_and_user_are_told_apart() {
        assert_eq!(of_abort(Abort::Provider(Reason::from(1))), "by the provider: protocol error");
        assert_eq!(of_abort(Abort::User(1)), "by the user: the sampler's seal was broken (reason 1)");
    }

    #[test]
    fn a_reason_without_words_keeps_its_octet() {
        assert_eq!(of_abort(Abort::User(200)), "by the user: reason 200, which has no words here");
        assert_eq!(of_abort(Abort::Provider(Reason::from(99))), "by the provider: reason 99");
    }
}
