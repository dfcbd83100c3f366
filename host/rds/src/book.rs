//! A port book with all the buffers that its calls are lent.

use crate::codec::sent;
use crate::ffi::{self, Lent};
use crate::frame::Side;
use crate::received::{self, Received};
use crate::refused::{accepted, Refused};
use crate::told::{part, small};

/// One side's own ports, towards one peer. A port of ours is 1 to 15 and a port of the peer's 0 to 15: it is the library that
/// refuses other values.
#[derive(Debug, Clone, PartialEq, Eq)]
pub struct Book {
    book: Vec<u8>,
    out: [u8; ffi::SENDING],
    answer: [u64; ffi::ANSWER],
}

/// Who reserved a port: our command was answered Success, or the peer's was.
#[derive(Debug, Clone, Copy, PartialEq, Eq)]
pub enum Whom {
    Us,
    Peer,
}

/// What is kept of a reserved port.
#[derive(Debug, Clone, PartialEq, Eq)]
pub struct Kept {
    pub whom: Whom,
    pub peers: u8,
    pub application: Vec<u8>,
    pub format: u8,
}

/// Our outstanding command.
#[derive(Debug, Clone, PartialEq, Eq)]
pub struct Outstanding {
    pub action: u8,
    pub own: u8,
    pub peers: u8,
    pub application: Vec<u8>,
    /// Those offered with Action 5, else 0.
    pub formats: u8,
}

impl Book {
    /// A book without a reserved port; formats are those that we support, 0 to 7.
    pub fn fresh(side: Side, formats: u8) -> Result<Book, Refused> {
        let octets = usize::try_from(ffi::ports_bytes()).map_err(|_| Refused::WrongSize)?;
        let mut book = Book::kept(vec![0; octets]);
        accepted(ffi::ports_fresh(&mut book.book, side.flag(), formats.into()))?;
        Ok(book)
    }

    /// A book from octets that were kept. They may be any: each call has the library judge them.
    pub fn kept(octets: Vec<u8>) -> Book {
        Book { book: octets, out: [0; ffi::SENDING], answer: [0; ffi::ANSWER] }
    }

    /// The octets of the book: all there is to keep.
    pub fn octets(&self) -> &[u8] {
        &self.book
    }

    /// Asks for the peer's port to go with ours; the frame is to be sent.
    pub fn reserve(&mut self, own: u8, peers: u8, with_format: bool, application: &[u8]) -> Result<Vec<u8>, Refused> {
        accepted(ffi::reserve(self.lent(), own.into(), peers.into(), with_format.into(), application))?;
        sent(&self.out, &self.answer)
    }

    /// Asks for the release of what our port is reserved with; the frame is to be sent.
    pub fn release(&mut self, own: u8) -> Result<Vec<u8>, Refused> {
        accepted(ffi::release(self.lent(), own.into()))?;
        sent(&self.out, &self.answer)
    }

    /// The outstanding command once more.
    pub fn again(&self) -> Result<Vec<u8>, Refused> {
        let (mut out, mut answer) = ([0; ffi::SENDING], [0; ffi::ANSWER]);
        accepted(ffi::again(&self.book, &mut out, &mut answer))?;
        sent(&out, &answer)
    }

    /// Gives the outstanding command up; no port changes.
    pub fn abandon(&mut self) -> Result<(), Refused> {
        accepted(ffi::abandon(&mut self.book))
    }

    /// Takes a frame from the peer.
    pub fn receive(&mut self, frame: &[u8]) -> Result<Received, Refused> {
        accepted(ffi::receive(self.lent(), frame))?;
        received::received(&self.answer, &self.out, frame).ok_or(Refused::Unreadable)
    }

    /// What is kept of a port of ours; none where it is free.
    pub fn port(&self, own: u8) -> Result<Option<Kept>, Refused> {
        let told = self.told(own)?.filter(|_| own != 0);
        told.map(|told| told.port().ok_or(Refused::Unreadable)).transpose()
    }

    /// Our outstanding command; none where there is none.
    pub fn outstanding(&self) -> Result<Option<Outstanding>, Refused> {
        self.told(0)?.map(|told| told.command().ok_or(Refused::Unreadable)).transpose()
    }

    /// What the library tells of a place; none where nothing is kept there.
    fn told(&self, port: u8) -> Result<Option<Told>, Refused> {
        let mut told = Told { out: [0; ffi::SENDING], answer: [0; ffi::ANSWER] };
        accepted(ffi::port(&self.book, port.into(), &mut told.out, &mut told.answer))?;
        Ok((told.answer != [0; ffi::ANSWER]).then_some(told))
    }

    fn lent(&mut self) -> Lent<'_> {
        Lent { book: &mut self.book, out: &mut self.out, answer: &mut self.answer }
    }
}

/// What the library told of a port or of the command.
struct Told {
    out: [u8; ffi::SENDING],
    answer: [u64; ffi::ANSWER],
}

impl Told {
    fn port(&self) -> Option<Kept> {
        let [length, _, _, _, _, peers, format, _, _, _, _, whom, ..] = self.answer;
        let whom = match whom {
            1 => Whom::Us,
            2 => Whom::Peer,
            _ => return None,
        };
        let application = part(&self.out, 0, length)?.to_vec();
        Some(Kept { whom, peers: small(peers)?, application, format: small(format)? })
    }

    fn command(&self) -> Option<Outstanding> {
        let [length, _, action, _, own, peers, formats, ..] = self.answer;
        let application = part(&self.out, 0, length)?.to_vec();
        Some(Outstanding {
            action: small(action)?,
            own: small(own)?,
            peers: small(peers)?,
            application,
            formats: small(formats)?,
        })
    }
}
