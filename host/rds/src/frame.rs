//! Frames as docs/RDS.md has them; what a kind of frame hasn't, its case hasn't. Parts are octets of the frame that was read.

/// The side that sent a frame, or whose book it is.
#[derive(Debug, Clone, Copy, PartialEq, Eq)]
pub enum Side {
    Ue,
    Network,
}

impl Side {
    pub fn other(self) -> Side {
        match self {
            Side::Ue => Side::Network,
            Side::Network => Side::Ue,
        }
    }

    /// As the library takes it: a flag that is on for the network.
    pub(crate) fn flag(self) -> u64 {
        u64::from(self == Side::Network)
    }
}

/// Ports of a header or of a body, each 0 to 15.
#[derive(Debug, Clone, Copy, PartialEq, Eq)]
pub struct Ports {
    pub source: u8,
    pub destination: u8,
}

#[derive(Debug, Clone, PartialEq, Eq)]
pub struct Frame<'a> {
    /// The ports octet, where ADS is 1.
    pub ports: Option<Ports>,
    pub content: Content<'a>,
}

#[derive(Debug, Clone, PartialEq, Eq)]
pub enum Content<'a> {
    I { told: Told, ns: u8, information: &'a [u8] },
    S(Told),
    Ui { number: u8, information: &'a [u8] },
    Command(Command<'a>),
    Response(Response<'a>),
}

/// What I and S tell of frames that came: A, N(R) and R.
#[derive(Debug, Clone, Copy, PartialEq, Eq)]
pub struct Told {
    pub ask: bool,
    pub nr: u8,
    pub r: u8,
}

#[derive(Debug, Clone, PartialEq, Eq)]
pub enum Command<'a> {
    Error,
    Disconnect,
    SetAckMode(&'a [u8]),
    SetParameters(&'a [u8]),
    Reserve(Asked<'a>),
    /// Reserve port and serialization format, with those offered.
    ReserveWithFormat(Asked<'a>, u8),
    Release(Asked<'a>),
    Query {
        with_formats: bool,
        requested: Option<u16>,
    },
    Notify(List<'a>),
}

#[derive(Debug, Clone, PartialEq, Eq)]
pub enum Response<'a> {
    Error,
    Accept(&'a [u8]),
    SetParameters(&'a [u8]),
    Reserve(Status),
    /// The Serialization Format, and the Status.
    ReserveWithFormat(u8, Status),
    Release(Status),
    Query(List<'a>),
}

/// The ports of a MANAGE_PORT body and its Application ID.
#[derive(Debug, Clone, Copy, PartialEq, Eq)]
pub struct Asked<'a> {
    pub ports: Ports,
    pub application: &'a [u8],
}

/// A list of ports. Port p counts 2^p in the bitmap.
#[derive(Debug, Clone, PartialEq, Eq)]
pub struct List<'a> {
    pub with_formats: bool,
    pub entries: Vec<Entry<'a>>,
    pub not_available: Option<u16>,
}

/// An entry of a list; without formats its format is 0.
#[derive(Debug, Clone, Copy, PartialEq, Eq)]
pub struct Entry<'a> {
    pub asked: Asked<'a>,
    pub format: u8,
}

#[derive(Debug, Clone, Copy, PartialEq, Eq)]
pub enum Status {
    Success,
    NotFree,
    NotAssociated,
    FormatNotSupported,
}

impl Status {
    pub(crate) const ALL: [Status; 4] = [Status::Success, Status::NotFree, Status::NotAssociated, Status::FormatNotSupported];

    pub(crate) fn of(word: u64) -> Option<Status> {
        usize::try_from(word).ok().and_then(|place| Status::ALL.get(place)).copied()
    }
}

impl std::fmt::Display for Status {
    fn fmt(&self, f: &mut std::fmt::Formatter<'_>) -> std::fmt::Result {
        f.pad(match self {
            Status::Success => "Success",
            Status::NotFree => "Port not free",
            Status::NotAssociated => "Port not associated with specified application",
            Status::FormatNotSupported => "Serialization format not supported",
        })
    }
}

/// The Actions of MANAGE_PORT.
pub(crate) mod action {
    pub const RESERVE: u64 = 1;
    pub const RELEASE: u64 = 2;
    pub const QUERY: u64 = 3;
    pub const NOTIFY: u64 = 4;
    pub const RESERVE_WITH_FORMAT: u64 = 5;
    pub const QUERY_WITH_FORMATS: u64 = 6;
    pub const NOTIFY_WITH_FORMATS: u64 = 7;
}

/// M of a U frame.
pub mod m {
    pub const ERROR: u64 = 1;
    pub const DISCONNECT: u64 = 4;
    pub const ACCEPT: u64 = 6;
    pub const SET_ACK_MODE: u64 = 7;
    pub const MANAGE_PORT: u64 = 10;
    pub const SET_PARAMETERS: u64 = 11;
}
