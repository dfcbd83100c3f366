//! The engine as initiator over UDP, with a real clock. Every PDU is printed and kept.

use kit::say;
use link::line::{Faults, Line};
use link::post::{address, Heard, Post};
use link::round::GATEWAY;
use link::step::{due, earliest, Packet, Step};
use std::time::Duration;
use wtp::{codec, Name, Refused, Role, Settings, Shown, Table, Taken};
use wtpdump::{Dump, Length};

const SETTINGS: Settings =
    Settings { rcr_max: 4, aec_max: 4, a: 2_000, w: 2_000, r_class_1: [4_000; 9], r_class_2: [4_000; 9], waiting_limit: None };

/// A PDU on the air.
#[derive(Debug, Clone, PartialEq, Eq)]
pub struct Seen {
    pub ours: bool,
    pub pdu: Vec<u8>,
}

/// One socket and one table. The table may be replaced by a fresh one, as in a reader that was switched off.
pub struct Conversation {
    post: Post,
    table: Table,
    dump: Dump,
    seen: Vec<Seen>,
}

impl Conversation {
    pub fn with(gateway: &str, first_tid: u16) -> Result<Conversation, String> {
        let post = Post::towards(address(gateway)?, Line::new(Faults::default(), 0))?;
        Ok(Conversation { post, table: fresh(first_tid)?, dump: Dump::new(Length::Short), seen: Vec::new() })
    }

    /// Forgets all transactions; the next request has this TID.
    pub fn start_anew(&mut self, first_tid: u16) -> Result<(), String> {
        self.table = fresh(first_tid)?;
        Ok(())
    }

    /// The PDUs since this was last asked.
    pub fn take_seen(&mut self) -> Vec<Seen> {
        std::mem::take(&mut self.seen)
    }

    /// Requests a transaction and gives its name.
    pub fn request(&mut self, class: u8, data: &[u8]) -> Result<Name, String> {
        let taken = self.table.request(self.post.now(), GATEWAY, class, false, data);
        let tid = taken.as_ref().ok().and_then(|taken| taken.tid).unwrap_or(0);
        self.carry_out(taken)?;
        Ok(Name { role: Role::Initiator, peer: GATEWAY, tid })
    }

    pub fn answer(&mut self, of: Name) -> Result<(), String> {
        let taken = self.table.answer(self.post.now(), of, &[]);
        self.carry_out(taken)
    }

    pub fn abort(&mut self, of: Name, reason: u8) -> Result<(), String> {
        let taken = self.table.abort(self.post.now(), of, reason);
        self.carry_out(taken)
    }

    /// Sends octets that the engine didn't write.
    pub fn send_by_hand(&mut self, pdu: &[u8]) -> Result<(), String> {
        self.send(Step { send: vec![Packet { peer: GATEWAY, octets: pdu.to_vec() }], log: Vec::new() })
    }

    /// What is shown of a transaction until its result or its abort, or until the time is over.
    pub fn outcome(&mut self, of: Name, limit: Duration) -> Result<Vec<Shown>, String> {
        let limit = u64::try_from(limit.as_millis()).unwrap_or(u64::MAX);
        let (end, mut all) = (self.post.now().saturating_add(limit), Vec::new());
        while self.post.now() < end {
            all.extend(self.turn(end)?.into_iter().filter(|shown| shown.of() == of));
            if all.iter().any(|shown| !matches!(shown, Shown::Confirmation { .. })) {
                break;
            }
        }
        Ok(all)
    }

    /// Fires what is due, and then waits for a datagram, until the next deadline or this time at most.
    fn turn(&mut self, until: u64) -> Result<Vec<Shown>, String> {
        let mut step = Step::default();
        let mut shown: Vec<_> = step.fire(&mut self.table, self.post.now()).into_iter().map(|(shown, _)| shown).collect();
        self.send(step)?;
        let mut step = Step::default();
        match self.post.hear(earliest(&[due(&self.table), Some(until)])) {
            Heard::Datagram(packet) => shown.extend(self.receive(&packet.octets, &mut step)),
            Heard::Nothing => {}
            Heard::Closed => return Err("nothing listens at the gateway's port".into()),
            Heard::Trouble(why) => return Err(why),
        }
        self.send(step).map(|()| shown)
    }

    fn receive(&mut self, datagram: &[u8], step: &mut Step) -> Vec<Shown> {
        let pdus = codec::separate(datagram);
        pdus.as_deref().unwrap_or(&[datagram]).iter().for_each(|pdu| self.note(false, pdu));
        let now = self.post.now();
        let shown = |pdu| step.take(GATEWAY, self.table.receive(now, GATEWAY, pdu));
        pdus.unwrap_or_default().into_iter().flat_map(shown).collect()
    }

    /// Sends what an accepted call sends.
    fn carry_out(&mut self, taken: Result<Taken, Refused>) -> Result<(), String> {
        let mut step = Step::default();
        step.take(GATEWAY, taken);
        self.send(step)
    }

    /// A call that was refused, or trouble in sending, ends the conversation.
    fn send(&mut self, step: Step) -> Result<(), String> {
        step.send.iter().for_each(|packet| self.note(true, &packet.octets));
        self.post.carry_out(step).into_iter().next().map_or(Ok(()), Err)
    }

    /// Prints and keeps a PDU, or a datagram that can't be separated.
    fn note(&mut self, ours: bool, pdu: &[u8]) {
        let (arrow, time) = (if ours { '>' } else { '<' }, self.post.now() as f64 / 1_000.0);
        for line in self.dump.datagram(pdu) {
            say::out(&format!("  {time:8.3} {arrow} {line}"));
        }
        self.seen.push(Seen { ours, pdu: pdu.to_vec() });
    }
}

fn fresh(first_tid: u16) -> Result<Table, String> {
    Table::fresh(4, &SETTINGS, first_tid).map_err(|refused| refused.to_string())
}

#[cfg(test)]
mod tests {
    use super::*;
    use std::net::UdpSocket;

    #[test]
    fn what_the_gateway_sends_is_shown_and_every_pdu_is_seen() {
        let gateway = UdpSocket::bind("127.0.0.1:0").unwrap();
        let mut talk = Conversation::with(&gateway.local_addr().unwrap().to_string(), 5).unwrap();
        let name = talk.request(2, b"?").unwrap();
        let (_, reader) = gateway.recv_from(&mut [0; 9]).unwrap();
        // A datagram that can't be separated, then a Result.
        for datagram in [&[0, 9][..], &[0x16, 0x80, 5, b'!']] {
            gateway.send_to(datagram, reader).unwrap();
        }
        let shown = talk.outcome(name, Duration::from_secs(5)).unwrap();
        assert!(matches!(&shown[..], [Shown::Confirmation { .. }, Shown::Result { data, .. }] if **data == *b"!"), "{shown:?}");
        talk.answer(name).unwrap();
        assert_eq!(
            talk.answer(name).unwrap_err(),
            "peer 0: the call was refused: the record's state doesn't allow the call, or it isn't due (number 9)"
        );
        let seen: Vec<_> = talk.take_seen().into_iter().map(|seen| (seen.ours, seen.pdu)).collect();
        let theirs = [(false, vec![0, 9]), (false, vec![0x16, 0x80, 5, b'!'])];
        assert_eq!(seen, [&[(true, vec![0x0E, 0, 5, 0x22, b'?'])], &theirs[..], &[(true, vec![0x18, 0, 5])]].concat());
    }

    #[test]
    fn a_closed_port_ends_the_conversation() {
        let closed = UdpSocket::bind("127.0.0.1:0").unwrap().local_addr().unwrap();
        let mut talk = Conversation::with(&closed.to_string(), 5).unwrap();
        let name = talk.request(2, b"?").unwrap();
        assert_eq!(talk.outcome(name, Duration::from_secs(5)).unwrap_err(), "nothing listens at the gateway's port");
    }
}
