//! Draws calls that copy the data of an indication.

use crate::calls::{Call, Kind};
use kit::Random;
use wtp::ffi::ANSWER;

/// The words of source, start and length of the first and of the second indication.
const PLACES: [usize; 6] = [12, 13, 14, 24, 25, 26];

/// The data of an answer's indication; the octets that the call had before are the datagram. One word is changed now and then.
pub fn draw(random: &mut Random, answer: &[u64], call: &mut Call) {
    call.words.clear();
    call.words.extend(answer.iter().take(ANSWER));
    if random.percent(30) {
        let octets = call.octets.len() as u64;
        let value = random.of(&[0, 1, 2, octets, octets + 1, 1024, 1500, 1 << 32, 1 << 63, u64::MAX]);
        call.words[random.of(&PLACES)] = value;
    }
    if random.percent(2) {
        let count = random.of(&[0, 1, ANSWER - 1, ANSWER + 1]);
        call.words.resize(count, 0);
    }
    call.kind = Kind::Data { k: random.of(&[0, 0, 0, 0, 1, 1, 1, 2, 1 << 32, u64::MAX]) };
}
