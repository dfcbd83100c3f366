//! The settings of a table.

use crate::ffi;

/// Counters and intervals, in milliseconds. The library says whether they are in range.
#[derive(Debug, Clone, Copy, PartialEq, Eq)]
pub struct Settings {
    pub rcr_max: u64,
    pub aec_max: u64,
    pub a: u64,
    pub w: u64,
    pub r_class_1: [u64; 9],
    pub r_class_2: [u64; 9],
    /// How long a wait for which the protocol has no timer may last before it ends by itself; `None`: for ever.
    pub waiting_limit: Option<u64>,
}

/// Where the modes and the waiting limit stand.
const MODES: usize = 22;
const WAITING_LIMIT: usize = 23;
/// The mode in which waits without a timer have a limit.
const LIMITED: u64 = 1;

impl Settings {
    /// The words in the library's order; those without a meaning are 0.
    pub(crate) fn words(&self) -> [u64; ffi::SETTINGS] {
        let single = [self.rcr_max, self.aec_max, self.a, self.w];
        let rows = self.r_class_1.iter().chain(&self.r_class_2);
        let mut words = [0; ffi::SETTINGS];
        for (word, value) in words.iter_mut().zip(single.iter().chain(rows)) {
            *word = *value;
        }
        if let Some(limit) = self.waiting_limit {
            words[MODES] = LIMITED;
            words[WAITING_LIMIT] = limit;
        }
        words
    }
}

#[cfg(test)]
mod tests {
    use super::*;

    #[test]
    fn the_words_are_in_the_order_of_the_header() {
        let r_class_1 = [5, 6, 7, 8, 9, 10, 11, 12, 13];
        let r_class_2 = [14, 15, 16, 17, 18, 19, 20, 21, 22];
        let settings = Settings { rcr_max: 1, aec_max: 2, a: 3, w: 4, r_class_1, r_class_2, waiting_limit: None };
        assert!(settings.words()[..22].iter().copied().eq(1..=22));
        assert_eq!(settings.words()[22..], [0; 10]);
        let limited = Settings { waiting_limit: Some(5_000), ..settings };
        assert_eq!(limited.words()[..22], settings.words()[..22]);
        assert_eq!(limited.words()[22..], [1, 5_000, 0, 0, 0, 0, 0, 0, 0, 0]);
    }
}
