//! Datagrams as lines of hex.

use crate::datagram::{Datagram, Entry};
use crate::hex::octets;

/// All datagrams up to the end, or up to the first line that can't be read.
/// A comma separates datagrams of one line: so tshark writes a field that a frame has more than once.
pub fn entries(text: &str) -> (Vec<Entry>, Option<String>) {
    let mut entries = Vec::new();
    for (number, line) in (1..).zip(text.lines()) {
        if line.starts_with("0000  ") {
            let hint = "a hexdump with offsets isn't read: write a capture (tshark -w FILE)";
            return (entries, Some(format!("line {number}: {hint}")));
        }
        let line = line.split('#').next().unwrap_or_default();
        if let Err(wrong) = read_line(number, line, &mut entries) {
            return (entries, Some(wrong));
        }
    }
    (entries, None)
}

fn read_line(number: usize, line: &str, entries: &mut Vec<Entry>) -> Result<(), String> {
    let mut before: usize = 0;
    for piece in line.split(',') {
        // Blanks keep the columns of the line.
        let in_place = format!("{}{piece}", " ".repeat(before));
        let octets = octets(&in_place).map_err(|wrong| format!("line {number}, {wrong}"))?;
        if !octets.is_empty() {
            entries.push(Entry::Datagram(Datagram { number, time: None, ends: None, octets }));
        }
        before = before.saturating_add(piece.chars().count()).saturating_add(1);
    }
    Ok(())
}

#[cfg(test)]
mod tests {
    use super::*;

    fn read(text: &str) -> (Vec<(usize, Vec<u8>)>, Option<String>) {
        let (entries, wrong) = entries(text);
        let datagram = |entry| match entry {
            Entry::Datagram(datagram) => Some((datagram.number, datagram.octets)),
            Entry::Passed { .. } => None,
        };
        (entries.into_iter().filter_map(datagram).collect(), wrong)
    }

    #[test]
    fn comments_and_empty_lines_are_passed_over() {
        let (datagrams, wrong) = read("# a case\n\n0E 00 05 02 # Invoke\n   \r\n1c:80:05\r\n");
        assert_eq!(datagrams, [(3, vec![0x0E, 0, 5, 2]), (5, vec![0x1C, 0x80, 5])]);
        assert_eq!(wrong, None);
    }

    #[test]
    fn commas_separate_datagrams() {
        assert_eq!(read("0e:00,16:80:05").0, [(1, vec![0x0E, 0]), (1, vec![0x16, 0x80, 5])]);
    }

    #[test]
    fn a_wrong_line_is_named_with_its_place_and_ends_the_reading() {
        let (datagrams, wrong) = read("0E00\n0E, 0E 0\n1C");
        assert_eq!(datagrams, [(1, vec![0x0E, 0]), (2, vec![0x0E])]);
        assert_eq!(wrong.as_deref(), Some("line 2, column 8: an octet has two hex digits, here is one"));
        assert_eq!(read("0E\nzz").1.as_deref(), Some("line 2, column 1: 'z' is no hex digit"));
    }

    #[test]
    fn a_hexdump_is_named() {
        let wrong = read("0000  45 00 00 20   E.. \n").1.unwrap_or_default();
        assert!(wrong.contains("hexdump"), "{wrong}");
    }
}
