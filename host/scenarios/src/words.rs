//! The words of a line, taken one after the other; what is wrong with one is told by its name.

use crate::octets;
use std::str::{FromStr, SplitWhitespace};
use wtp::ffi::Record;

pub struct Words<'a>(SplitWhitespace<'a>);

impl<'a> Words<'a> {
    pub fn of(line: &'a str) -> Words<'a> {
        Words(line.split_whitespace())
    }

    pub fn next(&mut self) -> Option<&'a str> {
        self.0.next()
    }

    /// The next word, unless it is octets after a slash.
    pub fn before_octets(&mut self) -> Option<&'a str> {
        let mut ahead = self.0.clone();
        let word = ahead.next().filter(|word| !word.starts_with('/'))?;
        self.0 = ahead;
        Some(word)
    }

    pub fn is_empty(&self) -> bool {
        self.0.clone().next().is_none()
    }

    fn named(&mut self, name: &str) -> Result<&'a str, String> {
        self.next().ok_or_else(|| format!("{name} is missing"))
    }

    pub fn number<T: FromStr>(&mut self, name: &str) -> Result<T, String> {
        let word = self.named(name)?;
        word.parse().map_err(|_| format!("{name} can't be {word:?}"))
    }

    /// 0 or 1: which of the two ends.
    pub fn end(&mut self) -> Result<usize, String> {
        match self.number("END")? {
            end @ 0..=1 => Ok(end),
            other => Err(format!("END can't be {other}")),
        }
    }

    pub fn record(&mut self) -> Result<Record, String> {
        Ok(Record { role: self.number("ROLE")?, peer: self.number("PEER")?, tid: self.number("TID")? })
    }

    /// Octets after a slash.
    pub fn octets(&mut self) -> Result<Vec<u8>, String> {
        let word = self.named("/OCTETS")?;
        word.strip_prefix('/').and_then(octets::octets).ok_or_else(|| format!("/OCTETS can't be {word:?}"))
    }

    /// Octets without a slash; none where the line ends.
    pub fn last_octets(&mut self) -> Result<Vec<u8>, String> {
        let word = self.next().unwrap_or_default();
        octets::octets(word).ok_or_else(|| format!("OCTETS can't be {word:?}"))
    }

    /// Nothing may be left.
    pub fn finish(mut self) -> Result<(), String> {
        self.next().map_or(Ok(()), |word| Err(format!("{word:?} is too much")))
    }
}
