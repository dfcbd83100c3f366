//! The words of a list of salvaged places, taken apart. None where they aren't what the interface describes.

use crate::ffi;
use std::fmt;

/// A place that was zeroed, and why.
#[derive(Debug, Clone, Copy, PartialEq, Eq)]
pub struct Salvaged {
    /// The place of the record in the table, from 0 on.
    pub place: usize,
    pub damage: Damage,
}

/// The first that held.
#[derive(Debug, Clone, Copy, PartialEq, Eq)]
pub enum Damage {
    OutOfRange,
    FreeNotZero,
    SameName,
}

/// Reads the words: the number of places, then the place and the reason of each, in rising order, then zeros.
pub(crate) fn salvaged(words: &[u64; ffi::SALVAGED]) -> Option<Vec<Salvaged>> {
    let [count, pairs @ ..] = words;
    let count = usize::try_from(*count).ok()?.checked_mul(2)?;
    let (listed, rest) = (pairs.get(..count)?, pairs.get(count..)?);
    let list = listed.chunks_exact(2).map(|pair| one(pair)).collect::<Option<Vec<_>>>()?;
    let rises = list.windows(2).all(|pair| matches!(pair, [one, next] if one.place < next.place));
    (rises && rest.iter().all(|word| *word == 0)).then_some(list)
}

fn one(pair: &[u64]) -> Option<Salvaged> {
    match *pair {
        [place, reason] => Some(Salvaged { place: usize::try_from(place).ok()?, damage: damage(reason)? }),
        _ => None,
    }
}

fn damage(reason: u64) -> Option<Damage> {
    match reason {
        1 => Some(Damage::OutOfRange),
        2 => Some(Damage::FreeNotZero),
        3 => Some(Damage::SameName),
        _ => None,
    }
}

impl Damage {
    /// The reason's number in document 02's order.
    pub fn number(self) -> u64 {
        match self {
            Damage::OutOfRange => 1,
            Damage::FreeNotZero => 2,
            Damage::SameName => 3,
        }
    }
}

impl fmt::Display for Damage {
    fn fmt(&self, f: &mut fmt::Formatter<'_>) -> fmt::Result {
        let words = match self {
            Damage::OutOfRange => "a field was out of range",
            Damage::FreeNotZero => "it was free and not zero",
            Damage::SameName => "it shared role, peer and TID with a live record of a lower place",
        };
        write!(f, "{words} (reason {})", self.number())
    }
}

#[cfg(test)]
mod tests {
    use super::*;

    fn list(words: &[u64]) -> [u64; ffi::SALVAGED] {
        let mut list = [0; ffi::SALVAGED];
        list[..words.len()].copy_from_slice(words);
        list
    }

    #[test]
    fn each_place_has_its_reason() {
        let place = |place, damage| Salvaged { place, damage };
        let all = [place(0, Damage::OutOfRange), place(4, Damage::SameName), place(47, Damage::FreeNotZero)];
        assert_eq!(salvaged(&list(&[3, 0, 1, 4, 3, 47, 2])).as_deref(), Some(&all[..]));
        assert_eq!(salvaged(&list(&[])), Some(vec![]));
        assert_eq!(all.map(|salvaged| salvaged.damage.number()), [1, 3, 2]);
    }

    #[test]
    fn the_longest_list_fills_the_words() {
        let mut words = [1; ffi::SALVAGED];
        words[0] = 48;
        (0..48).for_each(|place| words[1 + 2 * place] = place as u64);
        assert_eq!(salvaged(&words).map(|list| list.len()), Some(48));
    }

    #[test]
    fn what_the_interface_does_not_describe_is_not_read() {
        for words in [
            &[1, 0, 0][..],
            &[1, 0, 4],
            &[0, 1],
            &[1, 0, 1, 0, 2],
            &[2, 3, 1, 3, 1],
            &[2, 4, 1, 3, 1],
            &[49],
            &[u64::MAX],
            &[1 << 63],
        ] {
            assert_eq!(salvaged(&list(words)), None, "{words:?}");
        }
    }
}
