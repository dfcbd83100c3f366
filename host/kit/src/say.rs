//! Lines for people. A closed pipe is no reason to stop, so that what can't be written is left out.

use std::io::Write;

pub fn out(text: &str) {
    let mut stdout = std::io::stdout().lock();
    let _ = writeln!(stdout, "{text}").and_then(|()| stdout.flush());
}

pub fn err(text: &str) {
    let _ = writeln!(std::io::stderr(), "{text}");
}

/// The line about arguments, or about what they name, that can't be used.
pub fn refusal(program: &str, what: &str) -> String {
    format!("{program}: {what}; {program} --help says how it is used")
}
