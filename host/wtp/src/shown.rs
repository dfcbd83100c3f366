//! What a user is shown.

use std::fmt;
use std::ops::Deref;

#[derive(Debug, Clone, Copy, PartialEq, Eq)]
pub enum Role {
    Initiator,
    Responder,
}

/// The name of a record: which end of the transaction it is, the other end's number, and the TID without its top bit.
#[derive(Debug, Clone, Copy, PartialEq, Eq)]
pub struct Name {
    pub role: Role,
    pub peer: u16,
    pub tid: u16,
}

/// At least one octet.
#[derive(Debug, Clone, PartialEq, Eq)]
pub struct NonEmpty(Vec<u8>);

impl NonEmpty {
    /// None where there is no octet.
    pub fn of(octets: Vec<u8>) -> Option<NonEmpty> {
        if octets.is_empty() {
            None
        } else {
            Some(NonEmpty(octets))
        }
    }

    pub fn into_vec(self) -> Vec<u8> {
        self.0
    }
}

impl Deref for NonEmpty {
    type Target = [u8];

    fn deref(&self) -> &[u8] {
        &self.0
    }
}

/// One indication. A result without data is a true result and never an abort, so each has a case of its own.
#[derive(Debug, Clone, PartialEq, Eq)]
pub enum Shown {
    Invoke { of: Name, class: u8, user_ack: bool, data: Vec<u8> },
    Confirmation { of: Name, exit_information: Option<NonEmpty> },
    Result { of: Name, data: NonEmpty },
    EmptyResult { of: Name },
    Abort { of: Name, by: Abort },
}

impl Shown {
    /// The record that it concerns.
    pub fn of(&self) -> Name {
        match self {
            Shown::Invoke { of, .. }
            | Shown::Confirmation { of, .. }
            | Shown::Result { of, .. }
            | Shown::EmptyResult { of }
            | Shown::Abort { of, .. } => *of,
        }
    }
}

/// Who aborted, and why. A user's reason is the user's own octet.
#[derive(Debug, Clone, Copy, PartialEq, Eq)]
pub enum Abort {
    Provider(Reason),
    User(u8),
}

/// A provider's reason.
#[derive(Debug, Clone, Copy, PartialEq, Eq)]
pub enum Reason {
    ProtocolError,
    InvalidTid,
    NotImplementedSegmentation,
    WrongVersion,
    CapacityExceeded,
    NoResponse,
    /// An octet that document 01 doesn't name; a peer may send any.
    Other(u8),
}

impl From<u8> for Reason {
    fn from(octet: u8) -> Reason {
        match octet {
            1 => Reason::ProtocolError,
            2 => Reason::InvalidTid,
            4 => Reason::NotImplementedSegmentation,
            6 => Reason::WrongVersion,
            7 => Reason::CapacityExceeded,
            8 => Reason::NoResponse,
            other => Reason::Other(other),
        }
    }
}

impl fmt::Display for Reason {
    fn fmt(&self, f: &mut fmt::Formatter<'_>) -> fmt::Result {
        match self {
            Reason::ProtocolError => write!(f, "protocol error"),
            Reason::InvalidTid => write!(f, "invalid TID"),
            Reason::NotImplementedSegmentation => write!(f, "segmentation isn't implemented"),
            Reason::WrongVersion => write!(f, "not the same version of WTP"),
            Reason::CapacityExceeded => write!(f, "capacity exceeded for now"),
            Reason::NoResponse => write!(f, "no response"),
            Reason::Other(octet) => write!(f, "reason {octet}"),
        }
    }
}

impl fmt::Display for Abort {
    fn fmt(&self, f: &mut fmt::Formatter<'_>) -> fmt::Result {
        match self {
            Abort::Provider(reason) => write!(f, "aborted by the provider: {reason}"),
            Abort::User(octet) => write!(f, "aborted by the user: reason {octet}"),
        }
    }
}
