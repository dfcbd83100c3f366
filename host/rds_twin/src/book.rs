//! The port book of section 4, its octets (decision 87), and the calls that make and show it.

use crate::frame::{RELEASE, RESERVE, RESERVE_WITH_FORMAT};
use crate::{Said, ANSWER, SENDING, WRONG_SIZE, WRONG_VALUE};

pub const PORTS: usize = 16;
/// By whom, or the Action; a command's own port; the peer's port; a port's format; then the Application ID.
const PLACE: usize = 4 + LONGEST_APP;
const LONGEST_APP: usize = 272;
const BOOK: usize = 2 + PORTS * PLACE;

/// By whom a port is reserved.
pub const US: u8 = 1;
pub const PEER: u8 = 2;

#[derive(Clone, Debug, PartialEq, Eq)]
pub struct Reserved {
    pub whom: u8,
    pub peers: u8,
    pub application: Vec<u8>,
    pub format: u8,
}

/// Our outstanding command.
#[derive(Clone, Debug, PartialEq, Eq)]
pub struct Outstanding {
    pub action: u8,
    pub own: u8,
    pub peers: u8,
    pub application: Vec<u8>,
}

impl Outstanding {
    pub fn is_reserve(&self) -> bool {
        self.action != RELEASE
    }
}

#[derive(Clone, Debug, PartialEq, Eq)]
pub struct Book {
    pub network: bool,
    pub formats: u8,
    pub command: Option<Outstanding>,
    /// Port p at place p; place 0 is always free.
    ports: Vec<Option<Reserved>>,
}

impl Book {
    /// None where the octets have the wrong size or aren't well formed.
    pub fn read(octets: &[u8]) -> Option<Book> {
        if octets.len() != BOOK || octets[0] > 1 || octets[1] > 7 {
            return None;
        }
        let mut places = octets[2..].chunks(PLACE);
        let command = command(places.next()?)?;
        let ports = std::iter::once(Some(None)).chain(places.map(reserved)).collect::<Option<Vec<_>>>()?;
        Some(Book { network: octets[0] == 1, formats: octets[1], command, ports })
    }

    pub fn write(&self, octets: &mut [u8]) {
        octets.fill(0);
        octets[0] = self.network.into();
        octets[1] = self.formats;
        let mut places = octets[2..].chunks_mut(PLACE);
        if let (Some(place), Some(command)) = (places.next(), &self.command) {
            keep(place, [command.action, command.own, command.peers, 0], &command.application);
        }
        for (place, port) in places.zip(&self.ports[1..]) {
            if let Some(port) = port {
                keep(place, [port.whom, 0, port.peers, port.format], &port.application);
            }
        }
    }

    /// What is kept of a port, whatever the number.
    pub fn port(&self, port: u64) -> Option<&Reserved> {
        usize::try_from(port).ok().and_then(|port| self.ports.get(port))?.as_ref()
    }

    pub fn set(&mut self, port: u8, reserved: Option<Reserved>) {
        self.ports[usize::from(port)] = reserved;
    }
}

fn keep(place: &mut [u8], fields: [u8; 4], application: &[u8]) {
    place[..4].copy_from_slice(&fields);
    place[4..4 + application.len()].copy_from_slice(application);
}

/// The place of a command; the outer None: not well formed.
fn command(place: &[u8]) -> Option<Option<Outstanding>> {
    let [action, own, peers, format] = [place[0], place[1], place[2], place[3]];
    match action {
        0 => is_zero(place).then_some(None),
        RESERVE | RELEASE | RESERVE_WITH_FORMAT if (1..=15).contains(&own) && peers <= 15 && format == 0 => {
            application(place).map(|application| Some(Outstanding { action, own, peers, application }))
        }
        _ => None,
    }
}

fn reserved(place: &[u8]) -> Option<Option<Reserved>> {
    let [whom, own, peers, format] = [place[0], place[1], place[2], place[3]];
    match whom {
        0 => is_zero(place).then_some(None),
        US | PEER if own == 0 && peers <= 15 && format <= 7 => {
            application(place).map(|application| Some(Reserved { whom, peers, application, format }))
        }
        _ => None,
    }
}

/// The Application ID of a place, past which all is zero.
fn application(place: &[u8]) -> Option<Vec<u8>> {
    let (application, rest) = place[4..].split_at(17 + usize::from(place[4 + 16]));
    is_zero(rest).then(|| application.to_vec())
}

fn is_zero(octets: &[u8]) -> bool {
    octets.iter().all(|octet| *octet == 0)
}

pub fn ports_bytes() -> u64 {
    BOOK as u64
}

pub fn ports_fresh(book: &mut [u8], network: u64, formats: u64) -> Said {
    if book.len() != BOOK {
        return Said::refused(WRONG_SIZE);
    }
    if formats > 7 {
        return Said::refused(WRONG_VALUE);
    }
    Book { network: network != 0, formats: formats as u8, command: None, ports: vec![None; PORTS] }.write(book);
    Said::accepted(None)
}

/// The book, where it and the other buffers of a call over it have the right sizes.
pub fn lent(book: &[u8], out: &[u8], answer: &[u64]) -> Option<Book> {
    Book::read(book).filter(|_| out.len() >= SENDING && answer.len() >= ANSWER)
}

pub fn port(book: &[u8], port: u64, out: &mut [u8], answer: &mut [u64]) -> Said {
    let book = match lent(book, out, answer) {
        Some(book) => book,
        None => return Said::refused(WRONG_SIZE),
    };
    if port > 15 {
        return Said::refused(WRONG_VALUE);
    }
    let (mut words, mut application) = ([0; ANSWER], &[][..]);
    if let Some(command) = book.command.as_ref().filter(|_| port == 0) {
        let offered = if command.action == RESERVE_WITH_FORMAT { book.formats } else { 0 };
        words = [0, 0, command.action, 0, command.own, command.peers, offered, 0, 0, 0, 0, 0, 0, 0, 0, 0].map(u64::from);
        application = &command.application;
    }
    if let Some(kept) = book.port(port) {
        words = [0, 0, 0, 0, port as u8, kept.peers, kept.format, 0, 0, 0, 0, kept.whom, 0, 0, 0, 0].map(u64::from);
        application = &kept.application;
    }
    words[0] = application.len() as u64;
    out[..application.len()].copy_from_slice(application);
    answer[..ANSWER].copy_from_slice(&words);
    Said::accepted(None)
}
