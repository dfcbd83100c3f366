//! The words of an answer, taken apart. None where they aren't what the interface describes.

use crate::cost::{cost, Cost};
use crate::ffi;
use crate::shown::{Abort, Name, NonEmpty, Reason, Role, Shown};
use crate::unknown::{unknown, Unknown};

/// What an accepted call left to do.
#[derive(Debug, Clone, PartialEq, Eq)]
pub struct Taken {
    /// The PDU to send, to the peer that the call or `fired` names.
    pub sent: Option<Vec<u8>>,
    /// At most two, in order.
    pub shown: Vec<Shown>,
    /// The TID that a request was given.
    pub tid: Option<u16>,
    /// The record that was fired.
    pub fired: Option<Name>,
    /// The first unknown item of the PDU that was received, whatever else it did.
    pub unknown: Option<Unknown>,
    /// Of the initiator's transaction of class 1 or 2 that the call opened, named or fired; none where there is no such one.
    pub cost: Option<Cost>,
}

/// The octets that an answer's places point into.
pub(crate) struct Places<'a> {
    pub out: &'a [u8],
    pub store: &'a [u8],
    pub pdu: &'a [u8],
}

const FIRST: usize = 4;
const SECOND: usize = 16;
const WORDS: usize = 12;
const FIRED_NAME: usize = 28;
const FIRED_END: usize = 31;
const COST: usize = 32;
const COST_END: usize = 34;
const UNKNOWN: usize = 34;
const UNKNOWN_END: usize = 36;

/// Reads an answer; `requested` says whether its TID was given to a request.
pub(crate) fn take(answer: &[u64; ffi::ANSWER], places: &Places, requested: bool) -> Option<Taken> {
    let [sent, indications, tid, fired, ..] = *answer;
    let sent = part(places.out, 0, sent)?;
    Some(Taken {
        sent: NonEmpty::of(sent.to_vec()).map(NonEmpty::into_vec),
        shown: all_shown(answer, places, indications)?,
        tid: if requested { Some(u16::try_from(tid).ok()?) } else { None },
        fired: if flag(fired)? { Some(fired_name(answer)?) } else { None },
        unknown: unknown_item(answer)?,
        cost: told_cost(answer)?,
    })
}

/// The part of these octets that begins at `start`, where it lies in them.
pub(crate) fn part(octets: &[u8], start: u64, length: u64) -> Option<&[u8]> {
    let start = usize::try_from(start).ok()?;
    let end = start.checked_add(usize::try_from(length).ok()?)?;
    octets.get(start..end)
}

fn all_shown(answer: &[u64; ffi::ANSWER], places: &Places, indications: u64) -> Option<Vec<Shown>> {
    let starts: &[usize] = match indications {
        0 => &[],
        1 => &[FIRST],
        2 => &[FIRST, SECOND],
        _ => return None,
    };
    starts.iter().map(|start| one_shown(answer.get(*start..start.checked_add(WORDS)?)?, places)).collect()
}

fn one_shown(words: &[u64], places: &Places) -> Option<Shown> {
    let words = <[u64; WORDS]>::try_from(words).ok()?;
    let [kind, role, peer, tid, class, user_ack, abort_type, reason, source, start, length, _] = words;
    let of = name(role, peer, tid)?;
    let data = part(source_octets(source, places)?, start, length)?.to_vec();
    Some(match kind {
        1 => Shown::Invoke { of, class: u8::try_from(class).ok()?, user_ack: flag(user_ack)?, data },
        2 => Shown::Confirmation { of, exit_information: NonEmpty::of(data) },
        3 => match NonEmpty::of(data) {
            Some(data) => Shown::Result { of, data },
            None => Shown::EmptyResult { of },
        },
        4 => Shown::Abort { of, by: abort(abort_type, reason)? },
        _ => return None,
    })
}

fn source_octets<'a>(source: u64, places: &Places<'a>) -> Option<&'a [u8]> {
    match source {
        0 => Some(places.pdu),
        1 => Some(places.store),
        _ => None,
    }
}

fn abort(abort_type: u64, reason: u64) -> Option<Abort> {
    let octet = u8::try_from(reason).ok()?;
    match abort_type {
        0 => Some(Abort::Provider(Reason::from(octet))),
        1 => Some(Abort::User(octet)),
        _ => None,
    }
}

fn fired_name(answer: &[u64; ffi::ANSWER]) -> Option<Name> {
    match answer.get(FIRED_NAME..FIRED_END) {
        Some([role, peer, tid]) => name(*role, *peer, *tid),
        _ => None,
    }
}

fn unknown_item(answer: &[u64; ffi::ANSWER]) -> Option<Option<Unknown>> {
    match answer.get(UNKNOWN..UNKNOWN_END) {
        Some([identity, place]) => unknown(*identity, *place),
        _ => None,
    }
}

fn told_cost(answer: &[u64; ffi::ANSWER]) -> Option<Option<Cost>> {
    match answer.get(COST..COST_END) {
        Some([octets, ended]) => cost(*octets, *ended),
        _ => None,
    }
}

pub(crate) fn name(role: u64, peer: u64, tid: u64) -> Option<Name> {
    let role = if flag(role)? { Role::Responder } else { Role::Initiator };
    Some(Name { role, peer: u16::try_from(peer).ok()?, tid: u16::try_from(tid).ok()? })
}

pub(crate) fn flag(word: u64) -> Option<bool> {
    match word {
        0 => Some(false),
        1 => Some(true),
        _ => None,
    }
}

#[cfg(test)]
mod tests {
    use super::*;

    fn taken(words: &[(usize, u64)]) -> Option<Taken> {
        let mut answer = [0; ffi::ANSWER];
        for (place, word) in words {
            answer[*place] = *word;
        }
        take(&answer, &Places { out: &[1, 2, 3], store: &[4, 5, 6, 7], pdu: &[8, 9] }, false)
    }

    /// An answer with one result, whose data lies at this place.
    fn result_at(source: u64, start: u64, length: u64) -> Option<Taken> {
        taken(&[(1, 1), (4, 3), (12, source), (13, start), (14, length)])
    }

    #[test]
    fn a_place_is_looked_up_where_the_answer_says() {
        let data = |taken: Option<Taken>| match taken?.shown.pop()? {
            Shown::Result { data, .. } => Some(data.into_vec()),
            _ => None,
        };
        assert_eq!(data(result_at(0, 1, 1)), Some(vec![9]));
        assert_eq!(data(result_at(1, 1, 3)), Some(vec![5, 6, 7]));
    }

    #[test]
    fn an_empty_part_at_the_end_is_an_empty_result() {
        let shown = result_at(0, 2, 0).map(|taken| taken.shown);
        assert!(matches!(shown.as_deref(), Some([Shown::EmptyResult { .. }])));
    }

    #[test]
    fn what_the_interface_does_not_describe_is_not_read() {
        for (source, start, length) in [(0, 1, 2), (0, 3, 0), (1, 0, 5), (2, 0, 0), (0, u64::MAX, 1), (1, 1, u64::MAX)] {
            assert_eq!(result_at(source, start, length), None);
        }
        assert_eq!(taken(&[(0, 4)]), None, "more is sent than the output holds");
        assert_eq!(taken(&[(1, 3)]), None, "three indications");
        assert_eq!(taken(&[(1, 1)]), None, "an indication of no kind");
        assert_eq!(taken(&[(1, 1), (4, 4), (10, 2)]), None, "an abort of neither provider nor user");
        assert_eq!(taken(&[(1, 1), (4, 4), (11, 256)]), None, "a reason that is no octet");
        assert_eq!(taken(&[(3, 1), (29, 65_536)]), None, "a peer that is too wide");
        for (identity, place) in [(0, 4), (5, 4), (16, 4), (6, 65_536)] {
            assert_eq!(taken(&[(34, identity), (35, place)]), None, "identity {identity} at {place}");
        }
        for (octets, ended) in [(9_253, 0), (9_253, 1), (1 << 32, 1), (u64::MAX, 0), (0, 2), (17, 256)] {
            assert_eq!(taken(&[(32, octets), (33, ended)]), None, "cost {octets}, ended {ended}");
        }
    }

    #[test]
    fn a_cost_is_told_with_whether_its_transaction_ended() {
        let cost = |octets, ended| taken(&[(32, octets), (33, ended)]).map(|taken| taken.cost);
        assert_eq!(cost(0, 0), Some(None));
        assert_eq!(cost(17, 0), Some(Some(Cost { octets: 17, ended: false })));
        assert_eq!(cost(9_252, 1), Some(Some(Cost { octets: 9_252, ended: true })));
        assert_eq!(cost(0, 1), Some(Some(Cost { octets: 0, ended: true })), "a record that was kept from before it was counted");
    }

    #[test]
    fn an_unknown_item_is_told_by_its_identity_and_place() {
        let unknown = |words: &[(usize, u64)]| taken(words).map(|taken| taken.unknown);
        assert_eq!(unknown(&[]), Some(None));
        assert_eq!(unknown(&[(34, 6), (35, 3)]), Some(Some(Unknown { identity: 6, place: 3 })));
        assert_eq!(unknown(&[(34, 15), (35, 1_499)]), Some(Some(Unknown { identity: 15, place: 1_499 })));
    }
}
