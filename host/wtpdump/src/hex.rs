//! Octets as hex digits.

/// What isn't an octet, and where: a character of the text, counted from 1.
#[derive(Debug, Clone, PartialEq, Eq)]
pub enum WrongHex {
    NoDigit { column: usize, found: char },
    OddDigit { column: usize },
}

/// Reads octets of two digits each. Spaces and colons may stand between them, and `0x` before them.
pub fn octets(text: &str) -> Result<Vec<u8>, WrongHex> {
    let mut read = Vec::new();
    let mut column: usize = 1;
    for run in text.split_inclusive(is_separator) {
        let digits = run.trim_end_matches(is_separator);
        let shown = digits.strip_prefix("0x").or_else(|| digits.strip_prefix("0X")).unwrap_or(digits);
        let prefix = digits.len().saturating_sub(shown.len());
        read_run(shown, column.saturating_add(prefix), &mut read)?;
        column = column.saturating_add(run.chars().count());
    }
    Ok(read)
}

/// Whether the text is made of the characters of hex alone.
pub fn is_hex(text: &str) -> bool {
    !matches!(octets(text), Err(WrongHex::NoDigit { .. }))
}

/// Octets in capital digits with spaces, as document 01 writes them.
pub fn spaced(octets: &[u8]) -> String {
    octets.iter().map(|octet| format!("{octet:02X}")).collect::<Vec<_>>().join(" ")
}

fn is_separator(character: char) -> bool {
    character.is_ascii_whitespace() || character == ':'
}

fn read_run(digits: &str, start: usize, read: &mut Vec<u8>) -> Result<(), WrongHex> {
    let mut high: Option<(u8, usize)> = None;
    for (column, found) in (start..).zip(digits.chars()) {
        let digit = found.to_digit(16).and_then(|digit| u8::try_from(digit).ok());
        let digit = digit.ok_or(WrongHex::NoDigit { column, found })?;
        high = match high {
            None => Some((digit, column)),
            Some((high, _)) => {
                read.push(high << 4 | digit);
                None
            }
        };
    }
    match high {
        Some((_, column)) => Err(WrongHex::OddDigit { column }),
        None => Ok(()),
    }
}

impl std::fmt::Display for WrongHex {
    fn fmt(&self, f: &mut std::fmt::Formatter<'_>) -> std::fmt::Result {
        match self {
            WrongHex::NoDigit { column, found } => write!(f, "column {column}: {found:?} is no hex digit"),
            WrongHex::OddDigit { column } => write!(f, "column {column}: an octet has two hex digits, here is one"),
        }
    }
}

#[cfg(test)]
mod tests {
    use super::*;

    #[test]
    fn spaces_colons_and_prefixes_are_passed_over() {
        let expected = Ok(vec![0x0E, 0, 5, 2]);
        for text in ["0E000502", "0e 00 05 02", "0e:00:05:02", "0x0E000502", "0x0e 0X00 0x05 0x02", " 0E00  0502\t"] {
            assert_eq!(octets(text), expected, "{text}");
        }
        assert_eq!(octets(""), Ok(vec![]));
    }

    #[test]
    fn a_wrong_digit_is_named_with_its_place() {
        assert_eq!(octets("0E 0G"), Err(WrongHex::NoDigit { column: 5, found: 'G' }));
        assert_eq!(octets("0E é0"), Err(WrongHex::NoDigit { column: 4, found: 'é' }));
        assert_eq!(octets("x"), Err(WrongHex::NoDigit { column: 1, found: 'x' }));
    }

    #[test]
    fn a_single_digit_is_named_with_its_place() {
        assert_eq!(octets("0E000"), Err(WrongHex::OddDigit { column: 5 }));
        assert_eq!(octets("0E 0 05"), Err(WrongHex::OddDigit { column: 4 }));
        assert_eq!(octets("0x0"), Err(WrongHex::OddDigit { column: 3 }));
    }

    #[test]
    fn hex_is_told_from_a_name() {
        assert!(is_hex("0E0"));
        assert!(is_hex(""));
        assert!(!is_hex("dump.pcap"));
        assert!(!is_hex("./cafe"));
    }
}
