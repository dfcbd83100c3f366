//! Where datagrams come from, and what their source is made of.

use crate::datagram::{Datagram, Entry};
use crate::{capture, hex, text};
use std::ffi::OsString;

#[derive(Debug, Clone, PartialEq, Eq)]
pub enum Source {
    /// Each a datagram in hex.
    Hex(Vec<String>),
    File(OsString),
    StandardInput,
}

impl Source {
    /// Tells hex from the name of a file. None where the arguments are a mixture of both, or there are none.
    pub fn of(arguments: &[OsString]) -> Option<Source> {
        let hex: Option<Vec<String>> = arguments.iter().map(as_hex).collect();
        match (hex, arguments) {
            (_, []) => None,
            (Some(hex), _) => Some(Source::Hex(hex)),
            (None, [one]) if one == "-" => Some(Source::StandardInput),
            (None, [one]) => Some(Source::File(one.clone())),
            (None, _) => None,
        }
    }
}

fn as_hex(argument: &OsString) -> Option<String> {
    argument.to_str().filter(|text| hex::is_hex(text)).map(str::to_string)
}

/// The datagrams of hex arguments up to the first that is wrong, and what is wrong there.
pub fn arguments(arguments: &[String]) -> (Vec<Entry>, Option<String>) {
    let mut entries = Vec::new();
    for (number, argument) in (1..).zip(arguments) {
        match hex::octets(argument) {
            Ok(octets) => entries.push(Entry::Datagram(Datagram { number, time: None, ends: None, octets })),
            Err(wrong) => return (entries, Some(format!("argument {number}, {wrong}"))),
        }
    }
    (entries, None)
}

/// The datagrams of a file's content, which tells by itself what it is, up to where it can't be read, and why not.
pub fn content(content: &[u8], ports: &[u16]) -> (Vec<Entry>, Option<String>) {
    if capture::is_capture(content) {
        let (entries, broken) = capture::entries(content, ports);
        return (entries, broken.map(|broken| format!("octet {}: {}", broken.at, broken.what)));
    }
    match std::str::from_utf8(content) {
        Ok(lines) => text::entries(lines),
        Err(error) => {
            let at = error.valid_up_to();
            (vec![], Some(format!("neither a capture (pcap, pcapng) nor text: octet {at} is no character")))
        }
    }
}

#[cfg(test)]
mod tests {
    use super::*;

    fn source(arguments: &[&str]) -> Option<Source> {
        Source::of(&arguments.iter().map(OsString::from).collect::<Vec<_>>())
    }

    #[test]
    fn hex_a_file_and_the_standard_input_are_told_apart() {
        assert_eq!(source(&["0E 00", "1C8005"]), Some(Source::Hex(vec!["0E 00".into(), "1C8005".into()])));
        assert_eq!(source(&["a.pcap"]), Some(Source::File("a.pcap".into())));
        assert_eq!(source(&["-"]), Some(Source::StandardInput));
        assert_eq!(source(&["0E00", "a.pcap"]), None);
        assert_eq!(source(&[]), None);
    }

    #[test]
    fn an_odd_digit_is_named_with_its_argument() {
        let (entries, wrong) = arguments(&["0E".into(), "0E0".into()]);
        assert_eq!(entries.len(), 1);
        assert_eq!(wrong, Some("argument 2, column 3: an octet has two hex digits, here is one".into()));
    }

    #[test]
    fn what_is_neither_capture_nor_text_is_named_with_its_place() {
        let (entries, wrong) = content(&[b'0', b'E', 0xFF, 0], &[]);
        assert_eq!(entries, []);
        assert!(wrong.map_or(false, |wrong| wrong.contains("octet 2")));
    }

    #[test]
    fn an_empty_content_has_no_datagram_and_is_not_wrong() {
        assert_eq!(content(&[], &[]), (vec![], None));
    }
}
