//! Every PDU that the engine can send, in the order of the list of them: Invoke, TIDok, Acks, TIDve, Result, Aborts.

use crate::pair::{Pair, Step};
use wtp::Role::{self, Initiator, Responder};

/// A PDU and what the engine meant by it.
#[derive(Debug, Clone, PartialEq, Eq)]
pub struct Sent {
    pub meant: String,
    pub pdu: Vec<u8>,
}

const DATA: [usize; 3] = [0, 1, 1_024];
const EXIT_INFORMATION: [usize; 6] = [0, 1, 2, 3, 4, 128];
const USER_REASONS: [u8; 5] = [0, 1, 7, 0x80, 0xFF];
/// No unknown item to be named, and some.
const UNKNOWN: [Option<u8>; 4] = [None, Some(6), Some(10), Some(15)];

struct List {
    sent: Vec<Sent>,
    next_tid: u16,
}

/// Runs all scenarios. Err where the engine sent another PDU than is meant, or none.
pub fn every_pdu() -> Result<Vec<Sent>, String> {
    let mut list = List { sent: Vec::new(), next_tid: 0 };
    list.invokes()?;
    list.verification()?;
    for unknown in UNKNOWN {
        list.last_acks_of_the_initiator(unknown)?;
        list.acks_of_the_responder(unknown)?;
    }
    list.results()?;
    list.aborts_of_live_records()?;
    list.aborts_without_a_record()?;
    list.aborts_of_users()?;
    Ok(list.sent)
}

impl List {
    /// A pair whose TID is another one each time, over the whole range.
    fn pair(&mut self) -> Result<Pair, String> {
        Pair::new(self.another_tid())
    }

    /// The same, with an unknown item of this identity in each Invoke and Result.
    fn pair_with(&mut self, unknown: Option<u8>) -> Result<Pair, String> {
        match unknown {
            Some(identity) => Pair::with_unknown_items(self.another_tid(), identity),
            None => self.pair(),
        }
    }

    /// Only the first is 0.
    fn another_tid(&mut self) -> u16 {
        let tid = self.next_tid;
        self.next_tid = (tid + 32_767 - 1_499) % 32_768;
        tid
    }

    /// Notes a PDU, which must begin with `first`.
    fn note(&mut self, first: u8, meant: impl Into<String>, step: Step) -> Step {
        let meant = meant.into();
        let pdu = step.map_err(|why| format!("{meant}: {why}"))?;
        if pdu.first() != Some(&first) {
            return Err(format!("{meant}: {} was sent", wtpdump::spaced(&pdu)));
        }
        self.sent.push(Sent { meant, pdu: pdu.clone() });
        Ok(pdu)
    }

    fn invokes(&mut self) -> Result<(), String> {
        for (class, user_ack) in [(0, false), (0, true), (1, false), (1, true), (2, false), (2, true)] {
            for count in DATA {
                let meant = format!("Invoke class {class}, U/P {}, data {count}", u8::from(user_ack));
                let first = self.pair()?;
                self.invoke(first, class, user_ack, count, &meant)?;
                let later = Pair::after_the_first(self.another_tid())?;
                self.invoke(later, class, user_ack, count, &format!("{meant}, not the first"))?;
            }
        }
        Ok(())
    }

    /// An Invoke, and of class 1 and 2 its repeat.
    fn invoke(&mut self, mut pair: Pair, class: u8, user_ack: bool, count: usize, meant: &str) -> Result<(), String> {
        self.note(0x0E, meant, pair.request(class, user_ack, &octets(count)))?;
        if class > 0 {
            self.note(0x0F, format!("{meant}, repeat"), pair.timer(Initiator))?;
        }
        Ok(())
    }

    fn verification(&mut self) -> Result<(), String> {
        for class in [1, 2] {
            let mut pair = self.pair()?;
            let invoke = pair.request(class, false, b"")?;
            let tidve = self.note(0x1C, "TIDve", pair.arrives(Responder, &invoke))?;
            self.note(0x1D, "TIDve, repeat", pair.arrives(Responder, &repeated(&invoke)))?;
            self.note(0x1C, "TIDok", pair.arrives(Initiator, &tidve))?;
            self.note(0x1D, "TIDok, repeat to a TIDve", pair.arrives(Initiator, &tidve))?;
            self.note(0x1D, "TIDok, repeat by the timer", pair.timer(Initiator))?;
        }
        Ok(())
    }

    fn last_acks_of_the_initiator(&mut self, unknown: Option<u8>) -> Result<(), String> {
        for count in EXIT_INFORMATION {
            let mut pair = self.pair_with(unknown)?;
            let result = pair.resulted(true)?;
            let (con, error) = items(unknown, count);
            let meant = format!("last Ack of the initiator, exit information {count}{error}");
            self.note(0x18 | con, &meant, pair.answer(Initiator, &octets(count)))?;
            self.note(0x19 | con, format!("{meant}, repeat"), pair.arrives(Initiator, &repeated(&result)))?;
        }
        let mut pair = self.pair_with(unknown)?;
        pair.resulted(false)?;
        let (con, error) = items(unknown, 0);
        self.note(0x18 | con, format!("last Ack of the initiator by the timer{error}"), pair.timer(Initiator)).map(|_| ())
    }

    fn acks_of_the_responder(&mut self, unknown: Option<u8>) -> Result<(), String> {
        for count in EXIT_INFORMATION {
            let mut pair = self.pair_with(unknown)?;
            let invoke = pair.invoked(1, true)?;
            let (con, error) = items(unknown, count);
            let meant = format!("last Ack of the responder, exit information {count}{error}");
            self.note(0x18 | con, &meant, pair.answer(Responder, &octets(count)))?;
            self.note(0x19 | con, format!("{meant}, repeat"), pair.arrives(Responder, &repeated(&invoke)))?;
        }
        for (class, meant) in [(1, "last Ack of the responder by the timer"), (2, "hold-on Ack")] {
            let mut pair = self.pair_with(unknown)?;
            let invoke = pair.invoked(class, false)?;
            let (con, error) = items(unknown, 0);
            self.note(0x18 | con, format!("{meant}{error}"), pair.timer(Responder))?;
            self.note(0x19 | con, format!("{meant}{error}, repeat"), pair.arrives(Responder, &repeated(&invoke)))?;
        }
        Ok(())
    }

    fn results(&mut self) -> Result<(), String> {
        for count in DATA {
            let mut pair = self.pair()?;
            pair.invoked(2, false)?;
            let meant = format!("Result, data {count}");
            self.note(0x16, &meant, pair.result(&octets(count)))?;
            self.note(0x17, format!("{meant}, repeat"), pair.timer(Responder))?;
        }
        Ok(())
    }

    fn aborts_of_live_records(&mut self) -> Result<(), String> {
        let mut pair = self.pair()?;
        let invoke = pair.invoked(2, false)?;
        let malformed_ack = with_first(&invoke, 0x98, 0x80);
        self.note(0x20, "Abort PROTOERR of the initiator", pair.arrives(Initiator, &malformed_ack))?;
        let malformed_ack = with_first(&invoke, 0x98, 0);
        self.note(0x20, "Abort PROTOERR of the responder", pair.arrives(Responder, &malformed_ack))?;

        let mut pair = self.pair()?;
        pair.invoked(2, false)?;
        let mut result = pair.result(b"12.5")?;
        clear_ttr(&mut result);
        self.note(0x20, "Abort NOTIMPLEMENTEDSAR of the initiator", pair.arrives(Initiator, &result))?;

        let mut pair = self.pair()?;
        pair.resulted(true)?;
        pair.timer_silently(Initiator)?;
        self.note(0x20, "Abort NORESPONSE of the initiator", pair.timer(Initiator))?;

        let mut pair = self.pair()?;
        pair.invoked(1, true)?;
        pair.timer_silently(Responder)?;
        self.note(0x20, "Abort NORESPONSE of the responder", pair.timer(Responder))?;

        let mut pair = self.pair()?;
        pair.invoked(2, false)?;
        pair.timer(Responder)?;
        self.note(0x20, "Abort NORESPONSE of the responder at its waiting limit", pair.timer(Responder)).map(|_| ())
    }

    fn aborts_without_a_record(&mut self) -> Result<(), String> {
        let mut pair = self.pair()?;
        self.note(0x20, "Abort INVALIDTID", pair.arrives(Initiator, &[0x1C, 0x92, 0x34]))?;
        let sound = [0x0E, 0x12, 0x34, 0x02];
        let long = [&sound[..], &octets(1_025)].concat();
        let cases: [(&str, &[u8]); 4] = [
            ("Abort PROTOERR of no record", &[0x0E, 0x12, 0x34, 0x03]),
            ("Abort NOTIMPLEMENTEDSAR of no record", &[0x0C, 0x12, 0x34, 0x02]),
            ("Abort WTPVERSIONONE", &[0x0E, 0x12, 0x34, 0x42]),
            ("Abort CAPTEMPEXCEEDED", &long),
        ];
        for (meant, invoke) in cases {
            self.note(0x20, meant, pair.arrives(Responder, invoke))?;
        }
        Ok(())
    }

    fn aborts_of_users(&mut self) -> Result<(), String> {
        for at in [Initiator, Responder] {
            for reason in USER_REASONS {
                let mut pair = self.pair()?;
                pair.invoked(2, true)?;
                let meant = format!("Abort of the {}'s user, reason {reason}", called(at));
                self.note(0x21, meant, pair.abort(at, reason))?;
            }
        }
        Ok(())
    }
}

/// The CON bit of an Ack that names an unknown item or has so much exit information, and what is meant by its Error item.
fn items(unknown: Option<u8>, exit_information: usize) -> (u8, String) {
    let con = if unknown.is_none() && exit_information == 0 { 0 } else { 0x80 };
    (con, unknown.map_or_else(String::new, |identity| format!(", Error item for identity {identity}")))
}

fn called(role: Role) -> &'static str {
    match role {
        Initiator => "initiator",
        Responder => "responder",
    }
}

/// Octets of all values.
fn octets(count: usize) -> Vec<u8> {
    (0..=u8::MAX).rev().cycle().take(count).collect()
}

/// The copy of a PDU that a retransmission sends.
fn repeated(pdu: &[u8]) -> Vec<u8> {
    with_first(pdu, pdu.first().map_or(0, |first| first | 1), 0).into_iter().chain(pdu.iter().copied().skip(3)).collect()
}

/// The first three octets with another first one, and these bits in the TID's high octet.
fn with_first(pdu: &[u8], first: u8, direction: u8) -> Vec<u8> {
    match pdu {
        [_, high, low, ..] => vec![first, high | direction, *low],
        _ => vec![first],
    }
}

fn clear_ttr(pdu: &mut [u8]) {
    if let Some(first) = pdu.first_mut() {
        *first &= !2;
    }
}

#[cfg(test)]
mod tests {
    use super::*;
    use std::collections::BTreeSet;

    #[test]
    fn every_first_octet_is_sent_in_every_direction_that_it_can_have() {
        let sent = every_pdu().unwrap();
        let found: BTreeSet<(u8, u8)> = sent.iter().map(|sent| (sent.pdu[0], sent.pdu[1] >> 7)).collect();
        let both = [0x18, 0x19, 0x98, 0x99, 0x1C, 0x1D, 0x20, 0x21].iter().flat_map(|first| [(*first, 0), (*first, 1)]);
        let expected = both.chain([(0x0E, 0), (0x0F, 0), (0x16, 1), (0x17, 1)]).collect();
        assert_eq!(found, expected);
    }

    #[test]
    fn every_class_is_sent_with_and_without_its_flags() {
        let sent = every_pdu().unwrap();
        let fourth = |first: u8| sent.iter().filter(move |sent| sent.pdu[0] == first).map(|sent| sent.pdu[3]);
        let with_tidnew = [0x01, 0x11, 0x02, 0x12, 0x21, 0x31, 0x22, 0x32];
        assert_eq!(fourth(0x0F).collect::<BTreeSet<u8>>(), with_tidnew.into_iter().collect());
        assert_eq!(fourth(0x0E).collect::<BTreeSet<u8>>(), with_tidnew.into_iter().chain([0, 0x10]).collect());
    }

    #[test]
    fn an_error_item_comes_before_exit_information_of_every_length() {
        let sent = every_pdu().unwrap();
        let acks = sent.iter().filter(|sent| matches!(sent.pdu[0], 0x98 | 0x99)).map(|sent| &sent.pdu[3..]);
        let found: BTreeSet<&[u8]> =
            acks.filter(|items| items[0] & 0x7F == 1).map(|items| &items[..items.len().min(4)]).collect();
        let after: [&[u8]; 6] = [&[], &[0x09, 0xFF], &[0x0A, 0xFF], &[0x0B, 0xFF], &[0x0C, 4], &[0x0C, 128]];
        let items =
            |identity: u8| after.map(|after| [&[if after.is_empty() { 0x01 } else { 0x81 }, 0x10 | identity], after].concat());
        let expected: Vec<Vec<u8>> = UNKNOWN.into_iter().flatten().flat_map(items).collect();
        assert_eq!(found, expected.iter().map(|items| &items[..]).collect());
    }

    #[test]
    fn every_reason_of_a_provider_is_sent() {
        let sent = every_pdu().unwrap();
        let aborts = sent.iter().filter(|sent| sent.pdu[0] == 0x20);
        let found: BTreeSet<(u8, u8)> = aborts.map(|sent| (sent.pdu[1] >> 7, sent.pdu[3])).collect();
        let expected = [(0, 1), (0, 2), (0, 4), (0, 8), (1, 1), (1, 4), (1, 6), (1, 7), (1, 8)].into_iter().collect();
        assert_eq!(found, expected);
    }
}
