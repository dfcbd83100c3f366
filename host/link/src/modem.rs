//! An end behind a modem that speaks the Reliable Data Service: each datagram goes in a UI frame, between ports that are reserved at
//! the start and released at the end. Without it datagrams go as they are.

use crate::notes::Notes;
use crate::round::GATEWAY;
use crate::step::{earliest, End, Packet, Step};
use crate::wire::{Brought, Due, Repeats, Wire};
use rds::Side;
use std::collections::BTreeMap;
use std::fmt;
use wtp::Table;

pub struct Modem<E> {
    pub end: E,
    rds: Option<Rds>,
}

/// The ways to all peers.
struct Rds {
    side: Side,
    repeats: Repeats,
    wires: BTreeMap<u16, Wire>,
    /// Whether the reader has asked for its port.
    begun: bool,
    /// Whether ports are being released: the end does nothing more by itself.
    closing: bool,
    tally: Tally,
}

/// What came in frames.
#[derive(Debug, Clone, Copy, Default, PartialEq, Eq)]
pub struct Tally {
    /// Datagrams that were handed on to WTP.
    pub handed_on: u64,
    pub malformed: u64,
    /// Sound frames that were not for us.
    pub dropped: u64,
}

impl<E: End> End for Modem<E> {
    fn tick(&mut self, now: u64) -> Step {
        let mut step = self.rds.as_mut().map_or_else(Step::default, |rds| rds.tick(now));
        if self.is_open() {
            step.append(self.with(|end| end.tick(now)));
        }
        step
    }

    fn hear(&mut self, now: u64, packet: &Packet) -> Step {
        let rds = match &mut self.rds {
            Some(rds) => rds,
            None => return self.end.hear(now, packet),
        };
        let mut step = Step::default();
        if let Some(octets) = rds.hear(packet, &mut step) {
            let datagram = Packet { peer: packet.peer, octets };
            step.append(self.with(|end| end.hear(now, &datagram)));
        }
        step
    }

    fn table(&self) -> &Table {
        self.end.table()
    }

    /// Without the books of the ports: with RDS no state is kept.
    fn notes(&self) -> Notes {
        self.end.notes()
    }

    /// A reader without its port, or whose port is closed, is to be looked at at once.
    fn next(&self) -> Option<u64> {
        let of_wires = self.rds.as_ref().and_then(|rds| rds.wires.values().filter_map(Wire::next).min());
        let done = self.rds.as_ref().filter(|rds| rds.is_done()).map(|_| 0);
        earliest(&[self.end.next().filter(|_| self.is_open()), of_wires, done])
    }
}

impl<E: End> Modem<E> {
    /// Datagrams go as they are.
    pub fn plain(end: E) -> Modem<E> {
        Modem { end, rds: None }
    }

    /// A reader is the UE and asks for its ports; a gateway is the network.
    pub fn rds(end: E, side: Side, repeats: Repeats) -> Modem<E> {
        let rds = Rds { side, repeats, wires: BTreeMap::new(), begun: false, closing: false, tally: Tally::default() };
        Modem { end, rds: Some(rds) }
    }

    /// Has the end do something, and what it sends goes in frames.
    pub fn with(&mut self, act: impl FnOnce(&mut E) -> Step) -> Step {
        let step = act(&mut self.end);
        match &mut self.rds {
            Some(rds) => rds.framed(step),
            None => step,
        }
    }

    /// Whether the end may do something by itself: a gateway until its end, a reader while it has its port.
    fn is_open(&self) -> bool {
        self.rds.as_ref().map_or(true, |rds| !rds.closing && (rds.side == Side::Network || rds.is_open()))
    }

    /// Whether a reader has no port, and doesn't wait for one any more.
    pub fn has_failed(&self) -> bool {
        self.rds.as_ref().map_or(false, |rds| rds.begun && !rds.is_waiting() && !rds.is_open())
    }

    /// Releases what is reserved; the answers are waited for by going on until it is closed.
    pub fn close(&mut self, now: u64) -> Step {
        self.rds.as_mut().map_or_else(Step::default, |rds| rds.close(now))
    }

    /// Whether no answer is waited for.
    pub fn is_closed(&self) -> bool {
        !self.rds.as_ref().map_or(false, Rds::is_waiting)
    }

    /// What came in frames; none without RDS.
    pub fn tally(&self) -> Option<Tally> {
        self.rds.as_ref().map(|rds| rds.tally)
    }
}

impl Rds {
    fn tick(&mut self, now: u64) -> Step {
        let mut step = Step::default();
        if self.side == Side::Ue && !self.begun {
            self.begun = true;
            let repeats = self.repeats;
            let asked = Wire::new(Side::Ue, repeats).and_then(|wire| self.wires.entry(GATEWAY).or_insert(wire).reserve(now));
            step.ask(GATEWAY, asked);
        }
        for (peer, wire) in &mut self.wires {
            match wire.tick(now) {
                Ok(Due::Nothing) => (),
                Ok(Due::Again(frame)) => step.ask(*peer, Ok(frame)),
                Ok(Due::GivenUp) => step.say(format!("peer {peer}: no answer came to our command, which is given up")),
                Err(why) => step.ask(*peer, Err(why)),
            }
        }
        step
    }

    /// An outstanding command stays, and is repeated or given up as before.
    fn close(&mut self, now: u64) -> Step {
        self.closing = true;
        let mut step = Step::default();
        for (peer, wire) in self.wires.iter_mut().filter(|(_, wire)| wire.is_open() && wire.next().is_none()) {
            step.ask(*peer, wire.release(now));
        }
        step
    }

    /// Whether a reader has nothing more to wait for: it has no port, or has closed it.
    fn is_done(&self) -> bool {
        self.begun && !self.is_waiting() && (self.closing || !self.is_open())
    }

    fn is_waiting(&self) -> bool {
        self.wires.values().any(|wire| wire.next().is_some())
    }

    fn is_open(&self) -> bool {
        self.wires.values().any(Wire::is_open)
    }

    /// The datagram of a frame; none, and what is to be said and sent, where it has none for us.
    fn hear(&mut self, packet: &Packet, step: &mut Step) -> Option<Vec<u8>> {
        let Packet { peer, octets } = packet;
        let wire = match self.wire(*peer) {
            Ok(wire) => wire,
            Err(why) => {
                step.say(format!("peer {peer}: there is no book for its ports: {why}"));
                return None;
            }
        };
        let dropped = |why: &dyn fmt::Display| format!("peer {peer}: a frame of {} octets was dropped: {why}", octets.len());
        match wire.hear(octets) {
            Brought::Datagram(datagram) => {
                self.tally.handed_on += 1;
                return Some(datagram.to_vec());
            }
            Brought::Managed { send, told } => {
                step.send.extend(send.map(|octets| Packet { peer: *peer, octets }));
                step.log.extend(told.map(|told| format!("peer {peer}: {told}")));
            }
            Brought::Malformed(why) => {
                self.tally.malformed += 1;
                step.say(dropped(&why));
            }
            Brought::Dropped(why) => {
                self.tally.dropped += 1;
                step.say(dropped(&why));
            }
        }
        None
    }

    fn wire(&mut self, peer: u16) -> Result<&mut Wire, rds::Refused> {
        if !self.wires.contains_key(&peer) {
            self.wires.insert(peer, Wire::new(self.side, self.repeats)?);
        }
        self.wires.get_mut(&peer).ok_or(rds::Refused::Unreadable)
    }

    /// The same step with each datagram in a frame; without a port it isn't sent.
    fn framed(&mut self, step: Step) -> Step {
        let mut framed = Step { send: Vec::new(), log: step.log };
        for Packet { peer, octets } in step.send {
            match self.wires.get_mut(&peer).and_then(|wire| wire.put(&octets)) {
                Some(frame) => framed.ask(peer, frame),
                None => {
                    framed.say(format!("peer {peer}: a datagram of {} octets wasn't sent: no port is reserved", octets.len()))
                }
            }
        }
        framed
    }
}

impl Step {
    /// What another step has, after what this one has.
    fn append(&mut self, other: Step) {
        self.send.extend(other.send);
        self.log.extend(other.log);
    }

    /// A frame for a peer, or the line that says why there is none.
    fn ask(&mut self, peer: u16, frame: Result<Vec<u8>, rds::Refused>) {
        match frame {
            Ok(octets) => self.send.push(Packet { peer, octets }),
            Err(why) => self.say(format!("peer {peer}: the call was refused: {why}")),
        }
    }
}

impl fmt::Display for Tally {
    fn fmt(&self, f: &mut fmt::Formatter<'_>) -> fmt::Result {
        let Tally { handed_on, malformed, dropped } = self;
        write!(
            f,
            "frames: {handed_on} datagrams handed on to WTP, {malformed} malformed and dropped, {dropped} not for us and dropped"
        )
    }
}
