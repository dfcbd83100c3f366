//! A line as a command.

use crate::call::{Call, Event};
use crate::codec::Case;
use crate::desk::Sizes;
use crate::words::Words;

pub enum Command {
    /// A title or an empty line.
    Nothing,
    /// The settings of the next fresh table: the usual ones, but for these words.
    Set(Vec<(usize, u64)>),
    /// How much is lent from now on; None: what is right.
    Lend(Option<Sizes>),
    Bytes {
        records: u64,
    },
    Fresh {
        end: usize,
        records: u64,
        first_tid: u64,
    },
    /// Changes an octet of a table.
    Put {
        end: usize,
        at: usize,
        value: u8,
    },
    /// Copies the octets of one record over those of another.
    Copy {
        end: usize,
        place: usize,
        to: usize,
    },
    /// Makes every octet of a record this one.
    Fill {
        end: usize,
        place: usize,
        value: u8,
    },
    Look {
        end: usize,
    },
    /// The earliest deadline.
    Deadline {
        end: usize,
    },
    /// Salvages a table, with so many words lent for the list.
    Salvage {
        end: usize,
        words: usize,
    },
    Call(Call),
    Codec(Case),
}

/// The command of a line, or what is wrong with it.
pub fn command(line: &str) -> Result<Command, String> {
    let mut words = Words::of(line);
    let command = match words.next() {
        None => Command::Nothing,
        Some(title) if title.starts_with('#') => return Ok(Command::Nothing),
        Some("set") => Command::Set(values(&mut words)?),
        Some("lend") => Command::Lend(sizes(&mut words)?),
        Some("bytes") => Command::Bytes { records: words.number("RECORDS")? },
        Some("fresh") => fresh(&mut words)?,
        Some("put") => Command::Put { end: words.end()?, at: words.number("AT")?, value: words.number("VALUE")? },
        Some("copy") => Command::Copy { end: words.end()?, place: words.number("PLACE")?, to: words.number("TO")? },
        Some("fill") => Command::Fill { end: words.end()?, place: words.number("PLACE")?, value: words.number("VALUE")? },
        Some("sal") => Command::Salvage { end: words.end()?, words: words.number("WORDS")? },
        Some("look") => Command::Look { end: words.end()? },
        Some("due") => Command::Deadline { end: words.end()? },
        Some("r") => Command::Codec(Case::Read(words.last_octets()?)),
        Some("w") => Command::Codec(Case::Write { words: values(&mut words)?, octets: words.octets()? }),
        Some("s") => Command::Codec(Case::Separate(words.last_octets()?)),
        Some("j") => Command::Codec(Case::Join { lengths: lengths(&mut words)?, octets: words.octets()? }),
        Some(name) => Command::Call(call(name, &mut words)?),
    };
    words.finish()?;
    Ok(command)
}

/// Words by their places.
pub fn values(words: &mut Words) -> Result<Vec<(usize, u64)>, String> {
    let mut read = Vec::new();
    while let Some(word) = words.before_octets() {
        let (place, value) = word.split_once('=').unwrap_or_default();
        let placed = place.parse().ok().zip(value.parse().ok());
        read.push(placed.ok_or_else(|| format!("N=V can't be {word:?}"))?);
    }
    Ok(read)
}

fn lengths(words: &mut Words) -> Result<Vec<u64>, String> {
    let mut read = Vec::new();
    while let Some(word) = words.before_octets() {
        read.push(word.parse().map_err(|_| format!("N can't be {word:?}"))?);
    }
    Ok(read)
}

fn sizes(words: &mut Words) -> Result<Option<Sizes>, String> {
    if words.is_empty() {
        return Ok(None);
    }
    Ok(Some(Sizes {
        table: words.number("TABLE")?,
        store: words.number("STORE")?,
        out: words.number("OUT")?,
        answer: words.number("ANSWER")?,
        settings: words.number("WORDS")?,
    }))
}

fn fresh(words: &mut Words) -> Result<Command, String> {
    Ok(Command::Fresh { end: words.end()?, records: words.number("RECORDS")?, first_tid: words.number("TID")? })
}

fn call(name: &str, words: &mut Words) -> Result<Call, String> {
    if !["req", "ans", "res", "abo", "rcv", "get", "tim", "fir"].contains(&name) {
        return Err(format!("there is no command {name:?}"));
    }
    let (end, now) = (words.end()?, words.number("TIME")?);
    let event = match name {
        "req" => Event::Request { peer: words.number("PEER")?, class: words.number("CLASS")?, user_ack: words.number("UP")? },
        "ans" => Event::Answer(words.record()?),
        "res" => Event::Result(words.record()?),
        "abo" => Event::Abort(words.record()?, words.number("REASON")?),
        "tim" => Event::Timer,
        "fir" => Event::Fire(words.record()?),
        _ => Event::Receive { peer: words.number("PEER")? },
    };
    let octets = match name {
        "abo" | "tim" | "fir" => Some(Vec::new()),
        "get" => None,
        _ => Some(words.octets()?),
    };
    Ok(Call { end, now, event, octets })
}
