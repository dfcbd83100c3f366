//! Octets as a line writes them: two digits each; four or more equal ones as one, a star, their number and a comma.

const SHORTEST_RUN: usize = 4;

pub fn text(octets: &[u8]) -> String {
    let mut told = String::new();
    let mut rest = octets;
    while let Some(first) = rest.first() {
        told += &format!("{first:02X}");
        let equal = rest.iter().take_while(|octet| *octet == first).count();
        if equal < SHORTEST_RUN {
            rest = &rest[1..];
        } else {
            told += &format!("*{equal},");
            rest = &rest[equal..];
        }
    }
    told
}

/// None where the text is something else.
pub fn octets(text: &str) -> Option<Vec<u8>> {
    let mut read = Vec::new();
    let mut rest = text;
    while !rest.is_empty() {
        let (octet, times, after) = first_run(rest)?;
        read.extend(std::iter::repeat(octet).take(times));
        rest = after;
    }
    Some(read)
}

/// The first octet of a text, how many times it stands there, and what follows.
fn first_run(text: &str) -> Option<(u8, usize, &str)> {
    let digits = text.get(..2).filter(|digits| digits.bytes().all(|digit| digit.is_ascii_hexdigit()))?;
    let octet = u8::from_str_radix(digits, 16).ok()?;
    let after = &text[2..];
    match after.strip_prefix('*') {
        None => Some((octet, 1, after)),
        Some(counted) => {
            let (times, after) = counted.split_once(',')?;
            Some((octet, usize::from(times.parse::<u16>().ok()?), after))
        }
    }
}

/// The octets of a place; None where it runs past the end.
pub fn part(octets: &[u8], start: u64, length: u64) -> Option<&[u8]> {
    let start = usize::try_from(start).ok()?;
    octets.get(start..start.checked_add(usize::try_from(length).ok()?)?)
}

#[cfg(test)]
mod tests {
    use super::*;

    #[test]
    fn octets_are_told_and_read_back() {
        let run = [&[0x0E, 0, 0, 0, 5][..], &[0x41; 255], &[0, 0, 0, 0]].concat();
        for (octets_, told) in [(vec![], ""), (vec![0x0E, 0, 5, 2], "0E000502"), (run, "0E0000000541*255,00*4,")] {
            assert_eq!(text(&octets_), told);
            assert_eq!(octets(told), Some(octets_));
        }
    }

    #[test]
    fn what_is_no_octet_is_refused() {
        for text in ["0", "0E0", "G0", "+5", "0E*", "0E*4", "0E*x,", "0E*65536,", "é0", "0E 00"] {
            assert_eq!(octets(text), None, "{text}");
        }
    }
}
