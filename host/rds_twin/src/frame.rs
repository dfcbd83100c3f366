//! A frame as sections 1 and 2 describe it.

/// Start and length of octets in a frame, or in the octets lent for writing.
#[derive(Clone, Copy, Debug, PartialEq, Eq)]
pub struct Part {
    pub start: usize,
    pub length: usize,
}

#[derive(Clone, Copy, Debug, PartialEq, Eq)]
pub struct Ports {
    pub source: u8,
    pub destination: u8,
}

impl Ports {
    pub fn of(octet: u8) -> Ports {
        Ports { source: octet >> 4, destination: octet & 0x0F }
    }

    pub fn octet(self) -> u8 {
        self.source << 4 | self.destination
    }

    pub fn exchanged(self) -> Ports {
        Ports { source: self.destination, destination: self.source }
    }
}

#[derive(Clone, Debug, PartialEq, Eq)]
pub struct Frame {
    pub ports: Option<Ports>,
    pub kind: Kind,
}

#[derive(Clone, Debug, PartialEq, Eq)]
pub enum Kind {
    I { a: bool, ns: u8, nr: u8, r: u8, information: Part },
    S { a: bool, nr: u8, r: u8 },
    Ui { nu: u8, information: Part },
    U { response: bool, body: Body },
}

#[derive(Clone, Debug, PartialEq, Eq)]
pub enum Body {
    Error,
    Disconnect,
    Accept(Part),
    SetAckMode(Part),
    SetParameters(Part),
    ManagePort { action: u8, managed: Managed },
}

/// The information field of MANAGE_PORT.
#[derive(Clone, Debug, PartialEq, Eq)]
pub enum Managed {
    /// Reserve and Release commands; a format with Action 5 alone.
    Command {
        ports: Ports,
        application: Part,
        format: Option<u8>,
    },
    /// Their responses.
    Response {
        format: Option<u8>,
        status: u8,
    },
    Query {
        bitmap: Option<u16>,
    },
    List {
        entries: Vec<Entry>,
        bitmap: Option<u16>,
    },
}

#[derive(Clone, Copy, Debug, PartialEq, Eq)]
pub struct Entry {
    pub ports: Ports,
    pub application: Part,
    pub format: Option<u8>,
}

impl Body {
    /// M4..M1.
    pub fn m(&self) -> u8 {
        match self {
            Body::Error => 1,
            Body::Disconnect => 4,
            Body::Accept(_) => 6,
            Body::SetAckMode(_) => 7,
            Body::ManagePort { .. } => 10,
            Body::SetParameters(_) => 11,
        }
    }
}

pub const RESERVE: u8 = 1;
pub const RELEASE: u8 = 2;
pub const RESERVE_WITH_FORMAT: u8 = 5;

/// Whether entries of this Action's lists have a Serialization Format.
pub fn has_formats(action: u8) -> bool {
    matches!(action, 6 | 7)
}
