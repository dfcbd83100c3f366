//! The user data of a request, `sampler 0042`, and of a result, `NO2 41.2 ug/m3`: UTF-8 text.

use std::fmt;

const LONGEST_NUMBER: usize = 12;
const LONGEST_WORD: usize = 16;
const MOST_ESCAPED: usize = 40;

/// The number on a sampler, as it is printed there.
#[derive(Debug, Clone, PartialEq, Eq, Hash)]
pub struct Sampler(String);

impl Sampler {
    pub fn of(text: &str) -> Result<Sampler, String> {
        let good = |c: char| c.is_ascii_alphanumeric() || c == '-';
        if text.is_empty() {
            Err("the sampler number is missing".into())
        } else if text.chars().count() > LONGEST_NUMBER {
            Err(format!("the sampler number is too long: at most {LONGEST_NUMBER} characters"))
        } else if !text.chars().all(good) {
            Err(format!("the sampler number {text:?} may have only letters, digits and hyphens"))
        } else {
            Ok(Sampler(text.into()))
        }
    }

    /// The user data of the request for it.
    pub fn request(&self) -> Vec<u8> {
        format!("sampler {}", self.0).into_bytes()
    }

    /// The sampler that this user data asks for.
    pub fn asked_for(data: &[u8]) -> Option<Sampler> {
        let text = std::str::from_utf8(data).ok()?;
        Sampler::of(text.strip_prefix("sampler ")?).ok()
    }
}

impl fmt::Display for Sampler {
    fn fmt(&self, f: &mut fmt::Formatter<'_>) -> fmt::Result {
        f.pad(&self.0)
    }
}

/// A measured value: substance, number and unit. The number stays the text that the laboratory wrote.
#[derive(Debug, Clone, PartialEq, Eq)]
pub struct Concentration(String);

impl Concentration {
    /// None where the octets aren't these three words: then there is no value.
    pub fn of(octets: &[u8]) -> Option<Concentration> {
        let text = std::str::from_utf8(octets).ok()?;
        match text.split(' ').collect::<Vec<_>>()[..] {
            [substance, number, unit] if is_word(substance) && is_number(number) && is_word(unit) => {
                Some(Concentration(text.into()))
            }
            _ => None,
        }
    }

    pub fn octets(&self) -> &[u8] {
        self.0.as_bytes()
    }
}

impl fmt::Display for Concentration {
    fn fmt(&self, f: &mut fmt::Formatter<'_>) -> fmt::Result {
        f.pad(&self.0)
    }
}

fn is_word(text: &str) -> bool {
    let good = |c: char| c.is_alphanumeric() || "/%.-^".contains(c);
    (1..=LONGEST_WORD).contains(&text.chars().count()) && text.chars().all(good)
}

/// Digits with at most one point between them; a leading `<` says that the value is below the limit of detection.
fn is_number(text: &str) -> bool {
    let digits = |part: &str| !part.is_empty() && part.chars().all(|c| c.is_ascii_digit());
    let number = text.strip_prefix('<').unwrap_or(text);
    let good = number.split_once('.').map_or_else(|| digits(number), |(whole, rest)| digits(whole) && digits(rest));
    good && text.len() <= LONGEST_WORD
}

/// Octets for the screen, whatever they are: the first ones, in quotes.
pub fn escaped(octets: &[u8]) -> String {
    let shown = octets.get(..MOST_ESCAPED).unwrap_or(octets);
    let more =
        if shown.len() < octets.len() { format!(" and {} octets more", octets.len() - shown.len()) } else { String::new() };
    format!("\"{}\"{more}", shown.escape_ascii())
}

#[cfg(test)]
mod tests {
    use super::*;

    #[test]
    fn a_request_is_read_as_it_was_written() {
        let sampler = Sampler::of("0042").unwrap();
        assert_eq!(sampler.request(), b"sampler 0042");
        assert_eq!(Sampler::asked_for(b"sampler 0042"), Some(sampler));
    }

    #[test]
    fn other_octets_are_no_request() {
        for data in [&b""[..], b"sampler", b"sampler ", b"sampler 1 2", b"Sampler 1", b"sampler \xFF", b"sampler 1234567890123"] {
            assert_eq!(Sampler::asked_for(data), None, "{}", escaped(data));
        }
    }

    #[test]
    fn a_concentration_is_three_words_with_a_number() {
        for text in ["NO2 41.2 ug/m3", "O3 <0.5 µg/m³", "PM2.5 7 ug/m3"] {
            assert_eq!(Concentration::of(text.as_bytes()).unwrap().to_string(), text);
        }
    }

    #[test]
    fn what_is_no_concentration_is_never_one() {
        let long = format!("NO2 {} ug/m3", "1".repeat(17));
        let cases =
            ["", " ", "NO2", "NO2 41.2", "NO2  ug/m3", "NO2 . ug/m3", "NO2 1. ug/m3", "NO2 -1 u", "NO2 1e3 u", "NO2 NaN u"];
        for text in cases.into_iter().chain(["NO2 1 u ", "NO2 1\tu", "N\u{1b} 1 u", "NO2 1.2.3 u", "NO2 ١ u", &long]) {
            assert_eq!(Concentration::of(text.as_bytes()), None, "{text:?}");
        }
        assert_eq!(Concentration::of(b"NO2 1 \xFF"), None);
    }

    #[test]
    fn any_octets_are_safe_on_the_screen() {
        assert_eq!(escaped(b"a\x1b[2J\xFF\n"), r#""a\x1b[2J\xff\n""#);
        assert_eq!(escaped(&[b'x'; 42]), format!("\"{}\" and 2 octets more", "x".repeat(40)));
    }
}
