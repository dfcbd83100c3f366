//! What is sent goes through a line that may lose, double and delay it, so that one packet overtakes another.

use crate::step::Packet;
use kit::Random;
use std::collections::BTreeMap;
use std::fmt;

/// Percent that are lost, percent that are doubled, and the longest delay in milliseconds.
#[derive(Debug, Clone, Copy, Default, PartialEq, Eq)]
pub struct Faults {
    pub loss: u64,
    pub duplicate: u64,
    pub delay: u64,
}

pub struct Line {
    faults: Faults,
    random: Random,
    /// By the time at which a packet leaves, then in the order in which it was sent.
    waiting: BTreeMap<(u64, u64), Packet>,
    sent: u64,
    lost: u64,
    doubled: u64,
    order: u64,
}

impl Line {
    pub fn new(faults: Faults, seed: u64) -> Line {
        Line { faults, random: Random::new(seed), waiting: BTreeMap::new(), sent: 0, lost: 0, doubled: 0, order: 0 }
    }

    pub fn send(&mut self, now: u64, packet: Packet) {
        self.sent += 1;
        if self.random.percent(self.faults.loss) {
            self.lost += 1;
            return;
        }
        if self.random.percent(self.faults.duplicate) {
            self.doubled += 1;
            self.wait(now, packet.clone());
        }
        self.wait(now, packet);
    }

    fn wait(&mut self, now: u64, packet: Packet) {
        let leaves = now.saturating_add(self.random.below(self.faults.delay.saturating_add(1)));
        self.order += 1;
        self.waiting.insert((leaves, self.order), packet);
    }

    /// The packets that leave by now, in order.
    pub fn leaving(&mut self, now: u64) -> Vec<Packet> {
        let later = self.waiting.split_off(&(now.saturating_add(1), 0));
        std::mem::replace(&mut self.waiting, later).into_values().collect()
    }

    pub fn is_empty(&self) -> bool {
        self.waiting.is_empty()
    }

    /// When the next packet leaves.
    pub fn next(&self) -> Option<u64> {
        self.waiting.keys().next().map(|(leaves, _)| *leaves)
    }
}

impl fmt::Display for Line {
    fn fmt(&self, f: &mut fmt::Formatter<'_>) -> fmt::Result {
        let Faults { loss, duplicate, delay } = self.faults;
        write!(f, "{} datagrams sent, {} of them lost ({loss}%), ", self.sent, self.lost)?;
        write!(f, "{} doubled ({duplicate}%), delayed by up to {delay} ms", self.doubled)
    }
}

#[cfg(test)]
mod tests {
    use super::*;

    fn sent(faults: Faults) -> Line {
        let mut line = Line::new(faults, 1);
        for octet in 0..100 {
            line.send(10, Packet { peer: 0, octets: vec![octet] });
        }
        line
    }

    #[test]
    fn without_faults_all_leave_at_once_and_in_order() {
        let mut line = sent(Faults { loss: 0, duplicate: 0, delay: 0 });
        assert_eq!(line.next(), Some(10));
        assert!(line.leaving(9).is_empty());
        assert!(line.leaving(10).iter().map(|packet| packet.octets[0]).eq(0..100));
        assert!(line.is_empty() && line.next().is_none());
    }

    #[test]
    fn all_are_lost_or_all_are_doubled() {
        assert!(sent(Faults { loss: 100, duplicate: 100, delay: 0 }).is_empty());
        assert_eq!(sent(Faults { loss: 0, duplicate: 100, delay: 0 }).leaving(10).len(), 200);
    }

    #[test]
    fn a_delayed_packet_is_overtaken_and_not_lost() {
        let mut line = sent(Faults { loss: 0, duplicate: 0, delay: 50 });
        let mut left: Vec<_> = (10..=60).flat_map(|now| line.leaving(now)).map(|packet| packet.octets[0]).collect();
        assert!(!left.iter().copied().eq(0..100), "none was overtaken");
        left.sort_unstable();
        assert!(left.into_iter().eq(0..100));
    }
}
