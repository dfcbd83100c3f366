//! What a call gave, in words; what it may not touch and did is told too.

use crate::desk::{UNTOUCHED, UNTOUCHED_WORD};
use crate::octets::{part, text};
use crate::refused::refused;
use rds::ffi::{ANSWER, OUTPUT};

/// The words of a call that writes so many and no octet: those that aren't 0; or how it was refused.
pub fn words(count: usize, call: impl FnOnce(&mut [u64]) -> u64) -> Result<Vec<u64>, String> {
    let mut words = vec![UNTOUCHED_WORD; count + 1];
    let number = call(&mut words);
    if number != 0 {
        return Err(refused(number, words.iter().any(|word| *word != UNTOUCHED_WORD)));
    }
    match words.pop() {
        Some(UNTOUCHED_WORD) => Ok(words),
        _ => Err(": ok; CHANGED PAST THE WORDS".to_string()),
    }
}

/// The words other than 0.
pub fn said(words: &[u64]) -> String {
    let said = words.iter().enumerate().filter(|(_, word)| **word != 0);
    said.map(|(place, word)| format!(" {place}={word}")).collect()
}

/// The words of an answer and the octets at the start of the output, as many as word 0 says; or how the call was refused.
pub fn output(call: impl FnOnce(&mut [u8], &mut [u64]) -> u64) -> Result<(Vec<u64>, Vec<u8>), String> {
    let mut out = vec![UNTOUCHED; OUTPUT + 1];
    let answer = words(ANSWER, |answer| call(&mut out, answer));
    let touched = out.iter().rposition(|octet| *octet != UNTOUCHED).map_or(0, |last| last + 1);
    let answer = answer.map_err(|refused| refused + if touched > 0 { "; THE OUTPUT CHANGED" } else { "" })?;
    match part(&out, 0, answer[0]) {
        Some(octets) if touched <= octets.len() => Ok((answer, octets.to_vec())),
        _ => Err(format!(": ok{}; ANOTHER OUTPUT: {}", said(&answer), text(&out[..touched]))),
    }
}

/// An answer with its octets.
pub fn told(answer: Result<(Vec<u64>, Vec<u8>), String>) -> String {
    match answer {
        Err(refused) => refused,
        Ok((words, octets)) if octets.is_empty() => format!(": ok{}", said(&words)),
        Ok((words, octets)) => format!(": ok{} {}", said(&words), text(&octets)),
    }
}

#[cfg(test)]
mod tests {
    use super::*;

    #[test]
    fn what_a_call_may_not_touch_and_did_is_told() {
        let refuses = |_: &mut [u8], answer: &mut [u64]| {
            answer[0] = 1;
            9
        };
        assert_eq!(told(output(refuses)), ": refused 9; A REFUSED CALL CHANGED SOMETHING");
        let writes = |out: &mut [u8], _: &mut [u64]| {
            out[0] = 1;
            16
        };
        assert_eq!(told(output(writes)), ": refused 16; THE OUTPUT CHANGED");
        let past = |out: &mut [u8], answer: &mut [u64]| {
            answer[..16].fill(0);
            answer[0] = 1;
            out[..2].copy_from_slice(&[7, 8]);
            0
        };
        assert_eq!(told(output(past)), ": ok 0=1; ANOTHER OUTPUT: 0708");
        let too_many = |_: &mut [u8], answer: &mut [u64]| {
            answer.fill(0);
            0
        };
        assert_eq!(told(output(too_many)), ": ok; CHANGED PAST THE WORDS");
    }
}
