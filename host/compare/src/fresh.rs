//! Settings and first GenTIDs for the fresh-table call: good ones that let timers come due, and wrong ones.

use kit::layout::LONGEST;
use kit::Random;
use wtp::ffi::SETTINGS;

const INTERVALS: std::ops::Range<usize> = 2..22;
const MODES: usize = 22;
const WAITING_LIMIT: usize = 23;

/// Good settings: short intervals mostly, the two rows of R with nine values each that differ, every other time a waiting limit.
pub fn settings(random: &mut Random, words: &mut Vec<u64>) {
    words.clear();
    words.resize(SETTINGS, 0);
    words[0] = limit(random);
    words[1] = limit(random);
    let bound = random.of(&[3, 20, 50, 1000]);
    for interval in &mut words[INTERVALS] {
        *interval = short_mostly(random, bound);
    }
    if random.percent(50) {
        words[MODES] = 1;
        words[WAITING_LIMIT] = short_mostly(random, bound);
    }
}

/// Up to this bound mostly, else about as long as may be.
fn short_mostly(random: &mut Random, bound: u64) -> u64 {
    if random.percent(3) {
        LONGEST - random.below(2)
    } else {
        1 + random.below(bound)
    }
}

/// RCR_MAX or AEC_MAX: small mostly, so that the limit is reached.
fn limit(random: &mut Random) -> u64 {
    if random.percent(70) {
        random.below(3)
    } else {
        random.below(9)
    }
}

/// A first GenTID: low, in the middle, or just before it wraps, where the first request may be the one that brings it to 0.
pub fn first_tid(random: &mut Random) -> u64 {
    match random.below(5) {
        0 => 32_767 - random.below(8),
        1 => 32_767 - random.below(2),
        2 => random.below(32_768),
        _ => random.below(8),
    }
}

/// Puts one word out of range or just in range, or modes and waiting limit, or changes the number of words.
pub fn spoil(random: &mut Random, words: &mut Vec<u64>, first_tid: &mut u64) {
    let place = random.place(SETTINGS);
    match random.below(6) {
        0 => words.truncate(place),
        1 => words.push(0),
        2 => {
            words[MODES] = random.of(&[0, 1, 1, 1, 2, 3, 4, 8, 256, 257, u64::MAX]);
            words[WAITING_LIMIT] = random.of(&[0, 1, LONGEST, LONGEST + 1, 1 << 32, (1 << 32) + 1, u64::MAX]);
        }
        3 => *first_tid = random.of(&[32_767, 32_768, 65_536, u64::MAX]),
        _ => words[place] = random.of(&[0, 1, 8, 9, LONGEST, LONGEST + 1, 1 << 32, u64::MAX]),
    }
}

#[cfg(test)]
mod tests {
    use super::*;
    use kit::layout;

    fn fresh(settings: &[u64], first_tid: u64) -> u64 {
        wtp::ffi::fresh(&mut vec![0xFF; layout::table_bytes(1)], settings, first_tid)
    }

    #[test]
    fn good_settings_are_taken_and_spoilt_ones_are_refused_now_and_then() {
        let mut random = Random::new(1);
        let mut words = Vec::new();
        let mut refused = 0;
        for _ in 0..200 {
            settings(&mut random, &mut words);
            let mut tid = first_tid(&mut random);
            assert_eq!(fresh(&words, tid), 0);
            spoil(&mut random, &mut words, &mut tid);
            refused += u32::from(fresh(&words, tid) == 10);
        }
        assert!(refused > 100);
    }
}
