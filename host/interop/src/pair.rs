//! Two ends of a link, without a link between them: the caller carries the PDUs.

use wtp::{Name, Refused, Role, Settings, Table, Taken};

const PEER: u16 = 3;
/// Longer than the intervals of retransmission and acknowledgement and than the waiting limit, shorter than that of WAIT TIMEOUT.
const STEP: u64 = 1_000;
const SETTINGS: Settings =
    Settings { rcr_max: 4, aec_max: 1, a: 100, w: 1_000_000, r_class_1: [100; 9], r_class_2: [100; 9], waiting_limit: Some(100) };

const CON: u8 = 0x80;
const INVOKE: u8 = 1;
const RESULT: u8 = 2;

/// A PDU that was sent, or why none was.
pub type Step = Result<Vec<u8>, String>;

/// An initiator and a responder with one transaction between them, or none.
pub struct Pair {
    initiator: Table,
    responder: Table,
    tid: u16,
    now: u64,
    /// The identity of an unknown item that each Invoke and Result is given on its way.
    unknown: Option<u8>,
}

impl Pair {
    /// Both tables are fresh; `tid` is that of the transaction.
    pub fn new(tid: u16) -> Result<Pair, String> {
        let table = || Table::fresh(2, &SETTINGS, tid).map_err(|refused| refused.to_string());
        Ok(Pair { initiator: table()?, responder: table()?, tid, now: 0, unknown: None })
    }

    /// The same, but each Invoke and Result comes with an unknown item of this identity.
    pub fn with_unknown_items(tid: u16, identity: u8) -> Result<Pair, String> {
        Ok(Pair { unknown: Some(identity), ..Pair::new(tid)? })
    }

    /// The same, but the initiator's first Invoke has gone out before: that of the transaction is without TIDnew. `tid` isn't 0.
    pub fn after_the_first(tid: u16) -> Result<Pair, String> {
        let mut pair = Pair::new(tid.saturating_sub(1))?;
        pair.request(1, false, b"")?;
        pair.abort(Role::Initiator, 0)?;
        pair.tid = tid;
        Ok(pair)
    }

    pub fn request(&mut self, class: u8, user_ack: bool, data: &[u8]) -> Step {
        sent(self.initiator.request(self.now, PEER, class, user_ack, data))
    }

    /// Requests, verifies the TID, and ends where the responder's user is shown the Invoke; gives the Invoke.
    pub fn invoked(&mut self, class: u8, user_ack: bool) -> Step {
        let invoke = self.request(class, user_ack, b"sampler 7")?;
        let tidve = self.arrives(Role::Responder, &invoke)?;
        let tidok = self.arrives(Role::Initiator, &tidve)?;
        self.arrives_silently(Role::Responder, &tidok)?;
        Ok(invoke)
    }

    /// Ends where the initiator's user is shown the result; gives the Result.
    pub fn resulted(&mut self, user_ack: bool) -> Step {
        self.invoked(2, user_ack)?;
        let result = self.result(b"12.5")?;
        self.arrives_silently(Role::Initiator, &result)?;
        Ok(result)
    }

    /// A PDU arrives at this end, which sends one.
    pub fn arrives(&mut self, at: Role, pdu: &[u8]) -> Step {
        let (now, pdu) = (self.now, self.on_its_way(pdu));
        sent(self.end(at).receive(now, PEER, &pdu))
    }

    /// A PDU arrives at this end, which sends none.
    pub fn arrives_silently(&mut self, at: Role, pdu: &[u8]) -> Result<(), String> {
        let (now, pdu) = (self.now, self.on_its_way(pdu));
        unsent(self.end(at).receive(now, PEER, &pdu))
    }

    /// The timer fires the transaction at this end, which sends a PDU.
    pub fn timer(&mut self, at: Role) -> Step {
        sent(self.fire(at))
    }

    /// The timer fires the transaction at this end, which only waits once more.
    pub fn timer_silently(&mut self, at: Role) -> Result<(), String> {
        unsent(self.fire(at))
    }

    pub fn answer(&mut self, at: Role, exit_information: &[u8]) -> Step {
        let (now, of) = (self.now, self.name(at));
        sent(self.end(at).answer(now, of, exit_information))
    }

    pub fn result(&mut self, data: &[u8]) -> Step {
        let (now, of) = (self.now, self.name(Role::Responder));
        sent(self.responder.result(now, of, data))
    }

    pub fn abort(&mut self, at: Role, reason: u8) -> Step {
        let (now, of) = (self.now, self.name(at));
        sent(self.end(at).abort(now, of, reason))
    }

    /// The PDU as it arrives.
    fn on_its_way(&self, pdu: &[u8]) -> Vec<u8> {
        let (first, header) = match pdu.first() {
            Some(first) if first >> 3 == INVOKE => (*first, 4),
            Some(first) if first >> 3 == RESULT => (*first, 3),
            _ => return pdu.to_vec(),
        };
        match (self.unknown, pdu.get(1..header), pdu.get(header..)) {
            (Some(identity), Some(fixed), Some(data)) => [&[CON | first], fixed, &[identity << 3], data].concat(),
            _ => pdu.to_vec(),
        }
    }

    fn fire(&mut self, at: Role) -> Result<Taken, Refused> {
        self.now = self.now.saturating_add(STEP);
        let now = self.now;
        self.end(at).timer(now)
    }

    fn end(&mut self, at: Role) -> &mut Table {
        match at {
            Role::Initiator => &mut self.initiator,
            Role::Responder => &mut self.responder,
        }
    }

    fn name(&self, role: Role) -> Name {
        Name { role, peer: PEER, tid: self.tid }
    }
}

fn sent(taken: Result<Taken, Refused>) -> Step {
    taken.map_err(|refused| refused.to_string())?.sent.ok_or_else(|| "nothing was sent".to_string())
}

fn unsent(taken: Result<Taken, Refused>) -> Result<(), String> {
    match taken.map_err(|refused| refused.to_string())?.sent {
        None => Ok(()),
        Some(pdu) => Err(format!("{} was sent", wtpdump::spaced(&pdu))),
    }
}
