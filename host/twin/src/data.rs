//! The data of an indication, copied to its user.

use crate::words::ANSWER;

/// Words of an answer before the first indication, words of an indication, and of its data the first.
const FIRST: usize = 4;
const INDICATION: usize = 12;
const SOURCE: usize = 8;

pub fn data(datagram: &[u8], store: &[u8], answer: &[u64], k: u64, out: &mut [u8]) -> u64 {
    if answer.len() < ANSWER {
        return 1;
    }
    let at = match k {
        0 => FIRST + SOURCE,
        1 => FIRST + INDICATION + SOURCE,
        _ => return 11,
    };
    let (source, start, length) = (answer[at], answer[at + 1], answer[at + 2]);
    if length > out.len() as u64 {
        return 1;
    }
    let slice = if source == 0 { datagram } else { store };
    let end = u128::from(start) + u128::from(length);
    if length > 0 && end > slice.len() as u128 {
        return 11;
    }
    for k in 0..length as usize {
        out[k] = slice[start as usize + k];
    }
    0
}
