//! Unknown items, row by row: whether a received PDU that reached the row had one, and whether a plain Ack that the row sent named one.

use crate::buffers::Buffers;
use crate::calls::Kind;
use std::collections::BTreeMap;
use twin::Row;

/// The word of an answer that tells an unknown item.
const UNKNOWN: usize = 34;
/// The bits of a first octet that are the same in all plain Acks: all but CON and RID, and a reserved one that is sent 0.
const PLAIN_ACK: (u8, u8) = (0x7E, 0x18);
const CON: u8 = 0x80;
/// The first octet of an Error item, with CON or without.
const ERROR_ITEM: u8 = 0x01;

#[derive(Clone, Copy, Debug, PartialEq, Eq, PartialOrd, Ord)]
enum Of {
    /// A PDU that was received.
    Received,
    /// A plain Ack that was sent.
    Sent,
}

/// How many such PDUs of a row had no item of the kind, and how many had one.
#[derive(Default)]
pub struct Items {
    counts: BTreeMap<(Of, Row), [u64; 2]>,
}

impl Items {
    pub fn count(&mut self, kind: Kind, row: Row, left: &Buffers) {
        if matches!(kind, Kind::Receive { .. }) && !is_malformed(row) {
            self.add(Of::Received, row, left.words[UNKNOWN] != 0);
        }
        if left.words[0] > 0 && left.out[0] & PLAIN_ACK.0 == PLAIN_ACK.1 {
            self.add(Of::Sent, row, left.out[0] & CON != 0 && left.out[3] & !CON == ERROR_ITEM);
        }
    }

    fn add(&mut self, of: Of, row: Row, with_item: bool) {
        self.counts.entry((of, row)).or_default()[usize::from(with_item)] += 1;
    }

    /// Each row with an item in words, and its count.
    pub fn all(&self) -> impl Iterator<Item = (String, u64)> + '_ {
        self.counts.iter().map(|((of, row), [_, with_item])| (told(*of, *row), *with_item))
    }

    /// What was only reached without an item.
    pub fn never_reached(&self) -> impl Iterator<Item = String> + '_ {
        self.all().filter(|(_, count)| *count == 0).map(|(name, _)| name)
    }
}

fn told(of: Of, row: Row) -> String {
    match of {
        Of::Received => format!("with an unknown item: {}", row.name()),
        Of::Sent => format!("an Error item sent: {}", row.name()),
    }
}

/// Whether only malformed PDUs reach the row; of these nothing is told.
fn is_malformed(row: Row) -> bool {
    matches!(
        row,
        Row::ShortPdu
            | Row::NoRecordMalformedInvoke
            | Row::NoRecordMalformedOther
            | Row::IResultWaitMalformed
            | Row::IResultRespWaitMalformed
            | Row::IWaitTimeoutMalformed
            | Row::RTidokWaitMalformed
            | Row::RInvokeRespWaitMalformed
            | Row::RResultWaitMalformed
            | Row::RResultRespWaitMalformed
            | Row::RWaitTimeoutMalformed
    )
}

#[cfg(test)]
mod tests {
    use super::*;

    /// The buffers after a call that told this identity and sent these octets.
    fn left(identity: u64, sent: &[u8]) -> Buffers {
        let mut buffers = Buffers::default();
        buffers.resize(1);
        buffers.words[UNKNOWN] = identity;
        buffers.words[0] = sent.len() as u64;
        buffers.out[..sent.len()].copy_from_slice(sent);
        buffers
    }

    #[test]
    fn a_row_that_was_only_reached_without_an_item_is_named() {
        let receive = Kind::Receive { now: 0, peer: 0 };
        let mut items = Items::default();
        items.count(receive, Row::ShortPdu, &left(0, &[]));
        items.count(receive, Row::NoRecordAck, &left(0, &[]));
        items.count(Kind::Timer { now: 0 }, Row::RResultWaitTimer, &left(0, &[0x98, 0x80, 5, 0x09, 7]));
        items.count(Kind::Timer { now: 0 }, Row::IResultWaitTimerTidok, &left(0, &[0x1D, 0, 5]));
        let missing: Vec<String> = items.never_reached().collect();
        let unknown = format!("with an unknown item: {}", Row::NoRecordAck.name());
        assert_eq!(missing, [unknown, format!("an Error item sent: {}", Row::RResultWaitTimer.name())]);
        items.count(receive, Row::NoRecordAck, &left(6, &[]));
        items.count(Kind::Timer { now: 0 }, Row::RResultWaitTimer, &left(0, &[0x98, 0x80, 5, 0x81, 0x16, 0x08]));
        assert_eq!(items.never_reached().count(), 0);
    }
}
