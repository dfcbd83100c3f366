//! The way to one peer over the Reliable Data Service: a port of ours that is reserved with one of the peer's, and the frames
//! between them.

use rds::{Book, Event, Kept, Kind, Managed, Ports, Refused, Side, Status};

/// The port that each side has for WTP, and the Application ID: no OS Id, OS App Id "wtp".
pub const READER_PORT: u8 = 3;
pub const GATEWAY_PORT: u8 = 5;
pub const APPLICATION: &[u8; 20] = b"\0\0\0\0\0\0\0\0\0\0\0\0\0\0\0\0\x03wtp";

/// The Action of a Release command.
const RELEASE: u8 = 2;

/// How commands are repeated: after so many milliseconds (T200), so many times (N200).
#[derive(Debug, Clone, Copy)]
pub struct Repeats {
    pub after: u64,
    pub times: u64,
}

/// When our outstanding command is repeated, or given up where no repeat is left.
#[derive(Debug, Clone, Copy)]
struct Waiting {
    until: u64,
    left: u64,
}

pub struct Wire {
    book: Book,
    side: Side,
    own: u8,
    /// N(U) of the next frame.
    number: u8,
    repeats: Repeats,
    waiting: Option<Waiting>,
}

/// What a frame brought.
#[derive(Debug, PartialEq, Eq)]
pub enum Brought<'a> {
    /// A datagram between the ports that are reserved with each other.
    Datagram(&'a [u8]),
    /// The book was changed or asked: a frame to send, and a line.
    Managed {
        send: Option<Vec<u8>>,
        told: Option<String>,
    },
    Malformed(Refused),
    /// A sound frame that is not for us, and why.
    Dropped(&'static str),
}

/// What is due.
#[derive(Debug, PartialEq, Eq)]
pub enum Due {
    Nothing,
    Again(Vec<u8>),
    /// Our command was answered by nobody.
    GivenUp,
}

impl Wire {
    pub fn new(side: Side, repeats: Repeats) -> Result<Wire, Refused> {
        let own = if side == Side::Ue { READER_PORT } else { GATEWAY_PORT };
        Ok(Wire { book: Book::fresh(side, 0)?, side, own, number: 0, repeats, waiting: None })
    }

    /// Asks the peer for its port to go with ours.
    pub fn reserve(&mut self, now: u64) -> Result<Vec<u8>, Refused> {
        let peers = if self.side == Side::Ue { GATEWAY_PORT } else { READER_PORT };
        let frame = self.book.reserve(self.own, peers, false, APPLICATION)?;
        self.wait(now, self.repeats.times);
        Ok(frame)
    }

    /// Asks the peer to release what our port is reserved with.
    pub fn release(&mut self, now: u64) -> Result<Vec<u8>, Refused> {
        let frame = self.book.release(self.own)?;
        self.wait(now, self.repeats.times);
        Ok(frame)
    }

    fn wait(&mut self, now: u64, left: u64) {
        self.waiting = Some(Waiting { until: now.saturating_add(self.repeats.after), left });
    }

    /// When the outstanding command is repeated or given up.
    pub fn next(&self) -> Option<u64> {
        self.waiting.map(|waiting| waiting.until)
    }

    pub fn tick(&mut self, now: u64) -> Result<Due, Refused> {
        match self.waiting {
            Some(Waiting { until, left: 0 }) if until <= now => {
                self.waiting = None;
                self.book.abandon().map(|()| Due::GivenUp)
            }
            Some(Waiting { until, left }) if until <= now => {
                self.wait(now, left.saturating_sub(1));
                self.book.again().map(Due::Again)
            }
            _ => Ok(Due::Nothing),
        }
    }

    /// What our port is reserved with for WTP; none where it isn't.
    fn kept(&self) -> Option<Kept> {
        self.book.port(self.own).ok().flatten().filter(|kept| kept.application == APPLICATION)
    }

    pub fn is_open(&self) -> bool {
        self.kept().is_some()
    }

    /// The frame of a datagram; none where no port is reserved.
    pub fn put(&mut self, datagram: &[u8]) -> Option<Result<Vec<u8>, Refused>> {
        let ports = Ports { source: self.own, destination: self.kept()?.peers };
        Some(rds::put(datagram, Some(ports), self.number).map(|put| {
            self.number = put.next;
            put.frame
        }))
    }

    /// Takes a frame as a modem's driver does: what is malformed goes nowhere else.
    pub fn hear<'a>(&mut self, frame: &'a [u8]) -> Brought<'a> {
        let taken = match rds::take(frame, self.side.other()) {
            Ok(taken) => taken,
            Err(why) => return Brought::Malformed(why),
        };
        match taken.kind {
            Kind::Ui if self.is_ours(taken.ports) => Brought::Datagram(taken.datagram),
            Kind::Ui => Brought::Dropped("its ports aren't reserved with each other"),
            Kind::U => self.managed(frame),
            Kind::I | Kind::S => Brought::Dropped("acknowledged operation isn't built"),
        }
    }

    fn is_ours(&self, ports: Option<Ports>) -> bool {
        self.kept().map_or(false, |kept| ports == Some(Ports { source: kept.peers, destination: self.own }))
    }

    fn managed(&mut self, frame: &[u8]) -> Brought<'static> {
        match self.book.receive(frame) {
            Ok(received) => {
                if matches!(received.event, Event::Settled { .. }) {
                    self.waiting = None;
                }
                Brought::Managed { send: received.sent, told: told(&received.event) }
            }
            Err(why) => Brought::Malformed(why),
        }
    }
}

/// A line for what changed a port, or for what was refused.
fn told(event: &Event) -> Option<String> {
    match event {
        Event::Nothing => None,
        Event::Answered { managed, status, .. } => Some(line("the peer's command", managed, &status.to_string())),
        Event::Settled { managed, status: Some(status) } => Some(line("our command", managed, &status.to_string())),
        Event::Settled { managed, status: None } => Some(line("our command", managed, "ERROR")),
        Event::NotBuilt { m, .. } => Some(format!("a command with M {m}, which isn't built, was answered with ERROR")),
    }
    .filter(|_| !is_repeat(event))
}

/// A command of the peer that was answered before is answered once more, without a line.
fn is_repeat(event: &Event) -> bool {
    matches!(event, Event::Answered { managed: Managed { changed: false, .. }, status: Status::Success, .. })
}

fn line(whose: &str, managed: &Managed, status: &str) -> String {
    let what = if managed.action == RELEASE { "Release" } else { "Reserve" };
    format!("{whose} {what} of our port {} with its port {} was answered: {status}", managed.own, managed.peers)
}
