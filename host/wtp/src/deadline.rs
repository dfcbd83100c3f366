//! The words of a deadline, taken apart. None where they aren't what the interface describes.

use crate::ffi;
use crate::shown::Name;
use crate::taken::{flag, name};

/// When a record is due, and which.
#[derive(Debug, Clone, Copy, PartialEq, Eq)]
pub struct Deadline {
    /// In milliseconds, as the times of the calls; it may lie in the past.
    pub at: u64,
    pub of: Name,
}

/// Reads the words; without a deadline all of them are 0.
pub(crate) fn deadline(words: &[u64; ffi::DUE]) -> Option<Option<Deadline>> {
    let [any, at, role, peer, tid] = *words;
    if flag(any)? {
        Some(Some(Deadline { at, of: name(role, peer, tid)? }))
    } else {
        (*words == [0; ffi::DUE]).then_some(None)
    }
}

#[cfg(test)]
mod tests {
    use super::*;
    use crate::shown::Role;

    #[test]
    fn a_deadline_has_its_time_and_its_record() {
        let of = Name { role: Role::Responder, peer: 255, tid: 32_767 };
        assert_eq!(deadline(&[1, 1_050, 1, 255, 32_767]), Some(Some(Deadline { at: 1_050, of })));
        assert_eq!(deadline(&[0; 5]), Some(None));
    }

    #[test]
    fn what_the_interface_does_not_describe_is_not_read() {
        let too_wide = [[1, 9, 2, 7, 5], [1, 9, 0, 65_536, 5], [1, 9, 0, 7, 65_536]];
        for words in [[2, 9, 0, 7, 5], [0, 9, 0, 0, 0], [0, 0, 0, 0, 5]].into_iter().chain(too_wide) {
            assert_eq!(deadline(&words), None, "{words:?}");
        }
    }
}
