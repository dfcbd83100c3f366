//! The program, with its streams handed in.

use crate::arguments::{self, Asked, HELP};
use crate::datagram::Entry;
use crate::input::{self, Source};
use crate::lines::{Dump, Summary};
use kit::program::{FAILED, WRONG_ARGUMENTS};
use kit::say;
use std::ffi::OsString;
use std::io::{self, ErrorKind, Read, Write};

const GOOD: u8 = 0;

/// Runs wtpdump and gives its exit status.
pub fn run(arguments: impl Iterator<Item = OsString>, input: &mut dyn Read, out: &mut dyn Write, errors: &mut dyn Write) -> u8 {
    let (status, wrong) = match arguments::read(arguments) {
        Err(wrong) => (WRONG_ARGUMENTS, say::refusal("wtpdump", &wrong)),
        Ok(asked) => match answer(asked, input, out) {
            Ok(None) => return GOOD,
            Ok(Some(wrong)) => (FAILED, format!("wtpdump: {wrong}")),
            // A reader that wants no more lines (`wtpdump | head`) is no failure.
            Err(error) if error.kind() == ErrorKind::BrokenPipe => return GOOD,
            Err(error) => (FAILED, format!("wtpdump: the output can't be written: {error}")),
        },
    };
    // Where even this can't be written, the status still tells.
    writeln!(errors, "{wrong}").map_or(status, |()| status)
}

/// Writes what was asked for, and says what couldn't be read.
fn answer(asked: Option<Asked>, input: &mut dyn Read, out: &mut dyn Write) -> io::Result<Option<String>> {
    let wrong = match asked {
        None => {
            out.write_all(HELP.as_bytes())?;
            None
        }
        Some(asked) => {
            let (entries, wrong) = read(&asked, input);
            let summary = dump(&entries, &asked, out)?;
            if entries.len() > 1 || entries.is_empty() && wrong.is_none() {
                writeln!(out, "{summary}")?;
            }
            wrong
        }
    };
    out.flush()?;
    Ok(wrong)
}

fn read(asked: &Asked, input: &mut dyn Read) -> (Vec<Entry>, Option<String>) {
    let (name, content) = match &asked.source {
        Source::Hex(datagrams) => return input::arguments(datagrams),
        Source::File(name) => (format!("{} (no hex, so a file)", name.to_string_lossy()), std::fs::read(name)),
        Source::StandardInput => ("standard input".to_string(), to_the_end(input)),
    };
    match content {
        Ok(content) => {
            let (entries, wrong) = input::content(&content, &asked.ports);
            (entries, wrong.map(|wrong| format!("{name}: {wrong}")))
        }
        Err(error) => (vec![], Some(format!("{name}: {error}"))),
    }
}

fn to_the_end(input: &mut dyn Read) -> io::Result<Vec<u8>> {
    let mut content = Vec::new();
    input.read_to_end(&mut content)?;
    Ok(content)
}

fn dump(entries: &[Entry], asked: &Asked, out: &mut dyn Write) -> io::Result<Summary> {
    let mut dump = asked.frames.map_or_else(|| Dump::new(asked.length), |by| Dump::of_frames(asked.length, by));
    for line in entries.iter().flat_map(|entry| dump.lines(entry)) {
        writeln!(out, "{line}")?;
    }
    Ok(dump.summary())
}
