//! A live record: its state, its name and its fields, from and to the octets of the table.

use crate::bounds;
use crate::octets::{array_at, put_at};

pub const OCTETS: usize = 176;
/// Where the identity of an unknown item, the cost and then the spare octets start in a record.
const UNKNOWN: usize = 24;
const COST: usize = 25;
const SPARE: usize = 29;
/// Where the exit information starts in a record.
pub const EXIT: usize = 48;

#[derive(Clone, Copy, Debug, PartialEq, Eq)]
pub enum Role {
    Initiator = 0,
    Responder = 1,
}

impl Role {
    /// All flags that a record of this role may have.
    fn flags_most(self) -> u8 {
        match self {
            Role::Initiator => 31,
            Role::Responder => 15,
        }
    }

    /// The most that a record of this role may have cost.
    fn cost_most(self, rcr_max: u8) -> u32 {
        match self {
            Role::Initiator => bounds::cost(rcr_max),
            Role::Responder => 0,
        }
    }
}

#[derive(Clone, Copy, Debug, PartialEq, Eq)]
pub enum Class {
    One = 1,
    Two = 2,
}

#[derive(Clone, Copy, Debug, PartialEq, Eq)]
pub enum InitiatorState {
    ResultWait(Class),
    ResultRespWait,
    WaitTimeout,
}

#[derive(Clone, Copy, Debug, PartialEq, Eq)]
pub enum ResponderState {
    TidokWait(Class),
    InvokeRespWait(Class),
    ResultWait,
    ResultRespWait,
    WaitTimeout,
}

#[derive(Clone, Copy, Debug, PartialEq, Eq)]
pub enum State {
    Initiator(InitiatorState),
    Responder(ResponderState),
}

impl State {
    fn from_octet(octet: u8) -> Option<State> {
        use {InitiatorState as I, ResponderState as R};
        Some(match octet {
            1 => State::Initiator(I::ResultWait(Class::One)),
            2 => State::Initiator(I::ResultWait(Class::Two)),
            3 => State::Initiator(I::ResultRespWait),
            4 => State::Initiator(I::WaitTimeout),
            5 => State::Responder(R::TidokWait(Class::One)),
            6 => State::Responder(R::TidokWait(Class::Two)),
            7 => State::Responder(R::InvokeRespWait(Class::One)),
            8 => State::Responder(R::InvokeRespWait(Class::Two)),
            9 => State::Responder(R::ResultWait),
            10 => State::Responder(R::ResultRespWait),
            11 => State::Responder(R::WaitTimeout),
            _ => return None,
        })
    }

    fn octet(self) -> u8 {
        use {InitiatorState as I, ResponderState as R};
        match self {
            State::Initiator(I::ResultWait(class)) => class as u8,
            State::Initiator(I::ResultRespWait) => 3,
            State::Initiator(I::WaitTimeout) => 4,
            State::Responder(R::TidokWait(class)) => 4 + class as u8,
            State::Responder(R::InvokeRespWait(class)) => 6 + class as u8,
            State::Responder(R::ResultWait) => 9,
            State::Responder(R::ResultRespWait) => 10,
            State::Responder(R::WaitTimeout) => 11,
        }
    }

    pub fn role(self) -> Role {
        match self {
            State::Initiator(_) => Role::Initiator,
            State::Responder(_) => Role::Responder,
        }
    }
}

/// What no two live records share.
#[derive(Clone, Copy, Debug, PartialEq, Eq)]
pub struct Name {
    pub role: Role,
    pub peer: u8,
    pub tid: u16,
}

impl Name {
    /// The TID as this end sends it: the top bit is 0 towards the responder, 1 towards the initiator.
    pub fn send_tid(self) -> u16 {
        match self.role {
            Role::Initiator => self.tid,
            Role::Responder => self.tid | 0x8000,
        }
    }
}

#[derive(Clone, Copy, Debug, PartialEq, Eq)]
pub struct Record {
    pub state: State,
    pub peer: u8,
    pub tid: u16,
    pub rcr: u8,
    pub aec: u8,
    pub user_ack: bool,
    pub hold_on: bool,
    pub tidok_sent: bool,
    pub hold_on_sent: bool,
    /// The Invoke carries TIDnew; a responder's record never has it.
    pub tidnew: bool,
    pub exit_length: u8,
    pub deadline: Option<u64>,
    pub message_length: u32,
    /// The waiting limit that is the deadline; 0 where it is an ordinary timer's, or where there is none.
    pub limit: u32,
    /// The identity of the unknown item that plain Acks name, 0 where there is none.
    pub unknown: u8,
    /// The octets of the Invokes and TIDoks that an initiator's record has sent; 0 in a responder's.
    pub cost: u32,
}

impl Record {
    pub fn new(state: State, peer: u8, tid: u16, user_ack: bool) -> Record {
        Record {
            state,
            peer,
            tid,
            rcr: 0,
            aec: 0,
            user_ack,
            hold_on: false,
            tidok_sent: false,
            hold_on_sent: false,
            tidnew: false,
            exit_length: 0,
            deadline: None,
            message_length: 0,
            limit: 0,
            unknown: 0,
            cost: 0,
        }
    }

    pub fn name(&self) -> Name {
        Name { role: self.state.role(), peer: self.peer, tid: self.tid }
    }

    /// The record in these octets, `None` where the state is that of no live record.
    pub fn decode(octets: &[u8]) -> Option<Record> {
        let flags = octets[6];
        let deadline = u64::from_le_bytes(array_at(octets, 8));
        Some(Record {
            state: State::from_octet(octets[0])?,
            peer: octets[1],
            tid: u16::from_le_bytes(array_at(octets, 2)),
            rcr: octets[4],
            aec: octets[5],
            user_ack: flags & 1 != 0,
            hold_on: flags & 2 != 0,
            tidok_sent: flags & 4 != 0,
            hold_on_sent: flags & 8 != 0,
            tidnew: flags & 16 != 0,
            exit_length: octets[7],
            deadline: (deadline != 0).then_some(deadline),
            message_length: u32::from_le_bytes(array_at(octets, 16)),
            limit: u32::from_le_bytes(array_at(octets, 20)),
            unknown: octets[UNKNOWN],
            cost: u32::from_le_bytes(array_at(octets, COST)),
        })
    }

    /// Writes all fields but the exit information.
    pub fn encode(&self, octets: &mut [u8]) {
        octets[0] = self.state.octet();
        octets[1] = self.peer;
        put_at(octets, 2, &self.tid.to_le_bytes());
        octets[4] = self.rcr;
        octets[5] = self.aec;
        octets[6] = u8::from(self.user_ack)
            | u8::from(self.hold_on) << 1
            | u8::from(self.tidok_sent) << 2
            | u8::from(self.hold_on_sent) << 3
            | u8::from(self.tidnew) << 4;
        octets[7] = self.exit_length;
        put_at(octets, 8, &self.deadline.unwrap_or(0).to_le_bytes());
        put_at(octets, 16, &self.message_length.to_le_bytes());
        put_at(octets, 20, &self.limit.to_le_bytes());
        octets[UNKNOWN] = self.unknown;
        put_at(octets, COST, &self.cost.to_le_bytes());
    }

    /// Whether a record decoded from these octets has all fields in range.
    pub fn is_sound(&self, octets: &[u8], rcr_max: u8, aec_max: u8) -> bool {
        self.tid <= bounds::TID
            && self.rcr <= rcr_max
            && self.aec <= aec_max
            && octets[6] <= self.state.role().flags_most()
            && usize::from(self.exit_length) <= bounds::EXIT
            && self.deadline.unwrap_or(0) <= bounds::DEADLINE
            && self.message_length <= bounds::CELL as u32
            && self.limit <= bounds::INTERVAL
            && matches!(self.unknown, 0 | 6..=15)
            && self.cost <= self.state.role().cost_most(rcr_max)
            && octets[SPARE..EXIT] == [0; EXIT - SPARE]
    }
}
