//! What a program remembers beside its table: lines of text, each with a word that says what it is and then the rest.

use std::fmt::Display;
use std::str::FromStr;

#[derive(Debug, Clone, Default, PartialEq, Eq)]
pub struct Notes(Vec<String>);

impl Notes {
    /// The notes in these octets, of which every line begins with one of these words.
    pub fn of(octets: &[u8], words: &[&str]) -> Result<Notes, String> {
        let text = std::str::from_utf8(octets).map_err(|_| "its notes aren't UTF-8 text".to_string())?;
        let notes = Notes(text.lines().map(String::from).collect());
        let unknown = notes.0.iter().position(|line| !words.contains(&split(line).0));
        unknown.map_or(Ok(notes), |line| Err(format!("line {} of its notes can't be read", line + 1)))
    }

    pub fn octets(&self) -> Vec<u8> {
        self.0.iter().flat_map(|line| line.bytes().chain([b'\n'])).collect()
    }

    pub fn add(&mut self, word: &str, rest: impl Display) {
        self.0.push(format!("{word} {rest}"));
    }

    /// Takes over the lines of others.
    pub fn append(&mut self, others: Notes) {
        self.0.extend(others.0);
    }

    /// What follows the word in each line that begins with it.
    pub fn each<'a>(&'a self, word: &'a str) -> impl Iterator<Item = &'a str> + 'a {
        self.0.iter().map(|line| split(line)).filter(move |(first, _)| *first == word).map(|(_, rest)| rest)
    }

    /// The same as values of a type; an error where one isn't.
    pub fn values<T: FromStr>(&self, word: &str) -> Result<Vec<T>, String> {
        self.each(word).map(|rest| rest.parse().map_err(|_| unreadable(word, rest))).collect()
    }
}

/// What is wrong with a line.
pub fn unreadable(word: &str, rest: &str) -> String {
    format!("a note can't be read: {word} {rest}")
}

fn split(line: &str) -> (&str, &str) {
    line.split_once(' ').unwrap_or((line, ""))
}

#[cfg(test)]
mod tests {
    use super::*;

    #[test]
    fn notes_are_read_as_they_were_written() {
        let mut notes = Notes::default();
        notes.add("peer", 5);
        notes.add("own", "a b");
        notes.add("peer", 7);
        let read = Notes::of(&notes.octets(), &["own", "peer"]).unwrap();
        assert_eq!(read, notes);
        assert_eq!(read.values("peer"), Ok(vec![5, 7]));
        assert_eq!(read.each("own").collect::<Vec<_>>(), ["a b"]);
        assert_eq!(Notes::of(b"", &[]), Ok(Notes::default()));
    }

    #[test]
    fn what_cannot_be_read_is_named() {
        assert_eq!(Notes::of(b"own 1\nother 2\n", &["own"]), Err("line 2 of its notes can't be read".into()));
        assert_eq!(Notes::of(b"own \xFF", &["own"]), Err("its notes aren't UTF-8 text".into()));
        let notes = Notes::of(b"own x\n", &["own"]).unwrap();
        assert_eq!(notes.values::<u8>("own"), Err("a note can't be read: own x".into()));
    }
}
