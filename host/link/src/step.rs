//! What a reader or a gateway does with one event: packets to send, and lines that say what happened.

use crate::notes::Notes;
use wtp::{codec, Deadline, Refused, Shown, Table, Taken};

/// A datagram for a peer.
#[derive(Debug, Clone, PartialEq, Eq)]
pub struct Packet {
    pub peer: u16,
    pub octets: Vec<u8>,
}

#[derive(Debug, Default)]
pub struct Step {
    pub send: Vec<Packet>,
    pub log: Vec<String>,
}

/// A reader or a gateway, without socket and clock.
pub trait End {
    /// What is due at this time.
    fn tick(&mut self, now: u64) -> Step;

    /// What a datagram brings.
    fn hear(&mut self, now: u64, packet: &Packet) -> Step;

    /// The table, and with `notes` all that it needs to go on after it was cut off.
    fn table(&self) -> &Table;

    /// What it must remember beside its table.
    fn notes(&self) -> Notes;

    /// When `tick` has something to do again if nothing is heard: it may be slept until then, and for ever where there is none.
    fn next(&self) -> Option<u64>;
}

impl Step {
    pub fn say(&mut self, line: String) {
        self.log.push(line);
    }

    /// The PDUs of a datagram: none, and a line, where it can't be separated. A malformed one is named, and it is an event.
    pub fn separated<'a>(&mut self, peer: u16, datagram: &'a [u8]) -> Vec<&'a [u8]> {
        let pdus = codec::separate(datagram).unwrap_or_else(|why| {
            let length = datagram.len();
            self.say(format!("peer {peer}: a datagram of {length} octets was dropped: {why}"));
            Vec::new()
        });
        for (pdu, why) in pdus.iter().filter_map(|pdu| Some((pdu, codec::read(pdu).err()?))) {
            self.say(format!("peer {peer}: a PDU of {} octets is malformed: {why}", pdu.len()));
        }
        pdus
    }

    /// Takes over what a call for this peer leaves to do, and gives back what its user is shown.
    pub fn take(&mut self, peer: u16, taken: Result<Taken, Refused>) -> Vec<Shown> {
        match taken {
            Ok(taken) => {
                self.send.extend(taken.sent.map(|octets| Packet { peer, octets }));
                taken.shown
            }
            Err(why) => {
                self.say(format!("peer {peer}: the call was refused: {why}"));
                Vec::new()
            }
        }
    }

    /// Fires all records that are due, and gives back what the user is shown, each with what its transaction has cost.
    pub fn fire(&mut self, table: &mut Table, now: u64) -> Vec<(Shown, u32)> {
        let mut shown = Vec::new();
        while let Some(Deadline { of, .. }) = self.deadline(table).filter(|due| due.at <= now) {
            let taken = table.fire(now, of);
            let (refused, cost) = (taken.is_err(), cost(&taken));
            shown.extend(self.take(of.peer, taken).into_iter().map(|shown| (shown, cost)));
            if refused {
                break;
            }
        }
        shown
    }

    /// The earliest deadline; none, and a line, where the table isn't well formed any more.
    fn deadline(&mut self, table: &Table) -> Option<Deadline> {
        table.deadline().unwrap_or_else(|why| {
            self.say(format!("the next deadline isn't known: {why}"));
            None
        })
    }
}

/// The octets that the transaction of a call has cost, 0 where it is no initiator's.
pub fn cost(taken: &Result<Taken, Refused>) -> u32 {
    taken.as_ref().ok().and_then(|taken| taken.cost).map_or(0, |cost| cost.octets)
}

/// The earliest of the times that are there.
pub fn earliest(times: &[Option<u64>]) -> Option<u64> {
    times.iter().flatten().min().copied()
}

/// When a record of the table is due; in a table that isn't well formed any more, none ever is.
pub fn due(table: &Table) -> Option<u64> {
    table.deadline().ok().flatten().map(|due| due.at)
}

#[cfg(test)]
mod tests {
    use super::*;

    #[test]
    fn a_damaged_table_is_told_and_nothing_is_due() {
        let mut table = Table::kept(vec![0xFF; 800], vec![0; 1_024]);
        let mut step = Step::default();
        assert!(step.fire(&mut table, 0).is_empty());
        assert!(step.log.len() == 1 && step.log[0].starts_with("the next deadline isn't known: "), "{:?}", step.log);
        assert_eq!(due(&table), None);
    }

    #[test]
    fn what_cannot_be_separated_is_named_with_its_length_and_dropped() {
        for octets in [&[][..], &[0; 1_501], &[0, 0], &[0, 9, 1]] {
            let mut step = Step::default();
            assert!(step.separated(3, octets).is_empty());
            let start = format!("peer 3: a datagram of {} octets was dropped: ", octets.len());
            assert!(step.log.len() == 1 && step.log[0].starts_with(&start), "{:?}", step.log);
        }
    }

    #[test]
    fn a_malformed_pdu_is_named_and_handed_on() {
        let mut step = Step::default();
        let pdus = step.separated(3, &[0, 3, 0x18, 0x80, 5, 4, 0x0E, 0, 5, 3]);
        assert_eq!(pdus, [&[0x18, 0x80, 5][..], &[0x0E, 0, 5, 3]]);
        assert_eq!(step.log, ["peer 3: a PDU of 4 octets is malformed: the class is 3 (number 105)"]);
    }
}
