//! One case of the codec: what the library is asked, and what it gave, in words.

use crate::desk::{UNTOUCHED, UNTOUCHED_WORD};
use crate::octets::{part, text};
use crate::refused::refused;
use wtp::ffi::{self, ANSWER, FIELDS, OUTPUT, PART};

pub enum Case {
    /// Reads a PDU; what was read is then written.
    Read(Vec<u8>),
    /// Writes the PDU of these words, the others 0, whose parts lie in the octets.
    Write { words: Vec<(usize, u64)>, octets: Vec<u8> },
    /// Separates a datagram, and reads each part.
    Separate(Vec<u8>),
    /// Joins PDUs of these lengths.
    Join { lengths: Vec<u64>, octets: Vec<u8> },
}

/// What cases go to.
pub struct Codec {
    pub read: fn(&[u8], &mut [u64]) -> u64,
    pub write: fn(&[u64], &[u8], &mut [u8], &mut [u64]) -> u64,
    pub separate: fn(&[u8], u64, &mut [u64]) -> u64,
    pub join: fn(&[u8], &[u64], &mut [u8], &mut [u64]) -> u64,
}

pub const LIBRARY: Codec = Codec { read: ffi::read, write: ffi::write, separate: ffi::separate, join: ffi::join };

impl Codec {
    /// What a case gives; an error where it names a word that a PDU hasn't.
    pub fn told(&self, case: &Case) -> Result<String, String> {
        Ok(match case {
            Case::Read(pdu) => self.read_and_written(pdu),
            Case::Write { words, octets } => self.written(&fields(words, FIELDS)?, octets),
            Case::Separate(datagram) => self.separated(datagram),
            Case::Join { lengths, octets } => output(|out, answer| (self.join)(octets, lengths, out, answer)),
        })
    }

    fn read_and_written(&self, pdu: &[u8]) -> String {
        match words(FIELDS, |fields| (self.read)(pdu, fields)) {
            Err(refused) => refused,
            Ok(fields) => {
                let said = fields.iter().enumerate().filter(|(_, word)| **word != 0);
                let said: String = said.map(|(place, word)| format!(" {place}={word}")).collect();
                format!(": ok{said} ->{}", self.written(&fields, pdu))
            }
        }
    }

    fn written(&self, fields: &[u64], octets: &[u8]) -> String {
        output(|out, answer| (self.write)(fields, octets, out, answer))
    }

    fn separated(&self, datagram: &[u8]) -> String {
        match words(PART, |part| (self.separate)(datagram, 0, part)) {
            Err(refused) => refused,
            Ok(first) => ": ok".to_string() + &(0..first[2]).map(|k| self.part(datagram, k)).collect::<String>(),
        }
    }

    /// The k-th part of a datagram, and whether it can be read.
    fn part(&self, datagram: &[u8], k: u64) -> String {
        let place = match words(PART, |part| (self.separate)(datagram, k, part)) {
            Err(refused) => return format!(" PART {k}{refused}"),
            Ok(place) => place,
        };
        match part(datagram, place[0], place[1]) {
            None => format!(" PART {k} ISN'T THERE"),
            Some(pdu) => {
                let read = words(FIELDS, |fields| (self.read)(pdu, fields));
                format!(" {}{}", text(pdu), read.map_or_else(|refused| refused, |_| ": ok".to_string()))
            }
        }
    }
}

/// So many words: these, and else 0.
pub fn fields(words: &[(usize, u64)], count: usize) -> Result<Vec<u64>, String> {
    let mut fields = vec![0; count];
    for (place, value) in words {
        *fields.get_mut(*place).ok_or_else(|| format!("there is no word {place}"))? = *value;
    }
    Ok(fields)
}

/// The words that a call wrote, all of those that it was lent; or how it was refused.
fn words(count: usize, call: impl FnOnce(&mut [u64]) -> u64) -> Result<Vec<u64>, String> {
    let mut words = vec![UNTOUCHED_WORD; count];
    match call(&mut words) {
        0 => Ok(words),
        number => Err(refused(number, words.iter().any(|word| *word != UNTOUCHED_WORD))),
    }
}

/// The octets that a call wrote at the start of its output, whose number is the first word of its answer; the other words must be 0.
fn output(call: impl FnOnce(&mut [u8], &mut [u64]) -> u64) -> String {
    let (mut out, mut answer) = (vec![UNTOUCHED; OUTPUT], vec![UNTOUCHED_WORD; ANSWER]);
    let number = call(&mut out, &mut answer);
    if number != 0 {
        let octets = out.iter().any(|octet| *octet != UNTOUCHED);
        return refused(number, octets || answer.iter().any(|word| *word != UNTOUCHED_WORD));
    }
    let odd = (1..ANSWER).filter(|place| answer[*place] != 0);
    let odd: String = odd.map(|place| format!("; word {place} is {}", answer[place])).collect();
    match part(&out, 0, answer[0]) {
        None => format!(": ok; too many: {}{odd}", answer[0]),
        Some(octets) => {
            let untouched = out[octets.len()..].iter().all(|octet| *octet == UNTOUCHED);
            format!(": ok {}{odd}{}", text(octets), if untouched { "" } else { "; OUTPUT CHANGED PAST THE OCTETS" })
        }
    }
}
