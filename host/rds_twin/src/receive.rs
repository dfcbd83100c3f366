//! A frame from the peer: rows R1 to R15.

use crate::book::{self, Book, Reserved, PEER, US};
use crate::frame::{Body, Frame, Kind, Managed, Ports, RELEASE, RESERVE_WITH_FORMAT};
use crate::octets::octets;
use crate::parse::parse;
use crate::row::Row;
use crate::transfer::u_frame;
use crate::{Lent, Said, ANSWER, WRONG_SIZE};

const SUCCESS: u8 = 0;
const NOT_FREE: u8 = 1;
const NOT_ASSOCIATED: u8 = 2;
const NOT_SUPPORTED: u8 = 3;
/// Word 3 of an ERROR response.
const ERROR: u64 = 256;

pub fn receive(lent: Lent, octets: &[u8]) -> Said {
    let mut book = match book::lent(lent.book, lent.out, lent.answer) {
        Some(book) => book,
        None => return Said::refused(WRONG_SIZE),
    };
    let frame = match parse(octets, !book.network) {
        Ok(frame) => frame,
        Err(why) => return Said::malformed(why),
    };
    let turn = turn(&mut book, &frame, octets);
    lent.out[..turn.sent.len()].copy_from_slice(&turn.sent);
    lent.answer[..ANSWER].copy_from_slice(&turn.words);
    book.write(lent.book);
    Said::accepted(Some(Row::Peers(turn.row)))
}

/// What a frame brings about.
struct Turn {
    row: u8,
    sent: Vec<u8>,
    words: [u64; ANSWER],
}

fn turn(book: &mut Book, frame: &Frame, octets: &[u8]) -> Turn {
    match &frame.kind {
        Kind::U { response: false, body } => command(book, frame.ports, body, octets),
        Kind::U { response: true, body } => response(book, frame.ports, body),
        Kind::I { .. } | Kind::S { .. } | Kind::Ui { .. } => nothing(),
    }
}

/// R15.
fn nothing() -> Turn {
    Turn { row: 15, sent: Vec::new(), words: [0; ANSWER] }
}

fn command(book: &mut Book, ports: Option<Ports>, body: &Body, octets: &[u8]) -> Turn {
    match body {
        Body::Error => nothing(),
        Body::ManagePort { action, managed: Managed::Command { ports, application, format } } => {
            let part = application.start..application.start + application.length;
            let asked = Asked { action: *action, own: ports.destination, peers: ports.source, application: &octets[part] };
            let answer = if *action == RELEASE { asked.released(book) } else { asked.reserved(book, *format) };
            let mut turn = asked.turn(book, &answer);
            turn.words[8] = application.start as u64;
            turn.words[9] = application.length as u64;
            turn
        }
        Body::ManagePort { action, .. } => not_built(book, ports, body, *action),
        _ => not_built(book, ports, body, 0),
    }
}

/// R9: ERROR, with the ports of the command exchanged.
fn not_built(book: &Book, ports: Option<Ports>, body: &Body, action: u8) -> Turn {
    let error = Frame { ports: ports.map(Ports::exchanged), ..u_frame(true, Body::Error) };
    let sent = octets(&error, book.network, &[]);
    let mut words = [0; ANSWER];
    words[0] = sent.len() as u64;
    words[1] = 3;
    words[2] = action.into();
    words[10] = body.m().into();
    Turn { row: 9, sent, words }
}

/// A Reserve or Release command of the peer.
struct Asked<'a> {
    action: u8,
    own: u8,
    peers: u8,
    application: &'a [u8],
}

struct Answer {
    row: u8,
    status: u8,
    format: u8,
    changed: bool,
}

impl Asked<'_> {
    /// Rows R1 to R5.
    fn reserved(&self, book: &mut Book, offered: Option<u8>) -> Answer {
        let given = match offered {
            None => Some(0),
            Some(offered) => best(offered, book.formats),
        };
        let kept = book.port(self.own.into());
        let repeat = kept.filter(|kept| kept.peers == self.peers && kept.application == self.application);
        let (row, status, format) = match given {
            Some(format) if repeat.map_or(false, |kept| kept.format == format) => (1, SUCCESS, format),
            _ if self.own != 0 && self.is_taken(book) => (2, NOT_FREE, 0),
            None => (3, NOT_SUPPORTED, book.formats),
            Some(format) if self.own == 0 => (4, SUCCESS, format),
            Some(format) => {
                let application = self.application.to_vec();
                book.set(self.own, Some(Reserved { whom: PEER, peers: self.peers, application, format }));
                (5, SUCCESS, format)
            }
        };
        Answer { row, status, format, changed: row == 5 }
    }

    fn is_taken(&self, book: &Book) -> bool {
        let collides = book.command.as_ref().filter(|command| command.own == self.own);
        let same = |command: &&book::Outstanding| {
            command.is_reserve() && command.peers == self.peers && command.application == self.application
        };
        book.port(self.own.into()).is_some() || collides.map_or(false, |command| !same(&command))
    }

    /// Rows R6 to R8.
    fn released(&self, book: &mut Book) -> Answer {
        let is_its = book.port(self.own.into()).map_or(false, |kept| kept.application == self.application);
        let (row, status) = match self.own {
            0 => (6, SUCCESS),
            _ if is_its => (7, SUCCESS),
            _ => (8, NOT_ASSOCIATED),
        };
        if row == 7 {
            book.set(self.own, None);
        }
        Answer { row, status, format: 0, changed: row == 7 }
    }

    fn turn(&self, book: &Book, answer: &Answer) -> Turn {
        let format = (self.action == RESERVE_WITH_FORMAT).then_some(answer.format);
        let managed = Managed::Response { format, status: answer.status };
        let sent = octets(&u_frame(true, Body::ManagePort { action: self.action, managed }), book.network, &[]);
        let mut words = [0; ANSWER];
        words[0] = sent.len() as u64;
        let told = [1, self.action, answer.status, self.own, self.peers, format.unwrap_or(0), answer.changed.into()];
        words[1..8].copy_from_slice(&told.map(u64::from));
        Turn { row: answer.row, sent, words }
    }
}

/// The lowest bit that both have.
fn best(offered: u8, supported: u8) -> Option<u8> {
    [1, 2, 4].into_iter().find(|bit| offered & supported & bit != 0)
}

fn response(book: &mut Book, ports: Option<Ports>, body: &Body) -> Turn {
    let outstanding = book.command.as_ref().map(|command| command.action);
    match (body, outstanding) {
        (Body::Error, Some(_)) if ports.is_none() => settled(book, 14, ERROR, 0),
        (Body::ManagePort { action, managed: Managed::Response { format, status } }, Some(asked)) if *action == asked => {
            let row = match (asked == RELEASE, *status) {
                (false, SUCCESS) => 10,
                (false, _) => 11,
                (true, SUCCESS | NOT_ASSOCIATED) => 12,
                (true, _) => 13,
            };
            settled(book, row, (*status).into(), format.unwrap_or(0))
        }
        _ => nothing(),
    }
}

/// Rows R10 to R14: our command was answered, and is outstanding no more.
fn settled(book: &mut Book, row: u8, status: u64, format: u8) -> Turn {
    let command = match book.command.take() {
        Some(command) => command,
        None => return nothing(),
    };
    let was_reserved = book.port(command.own.into()).is_some();
    let changed = row == 10 || row == 12 && was_reserved;
    let (action, own, peers) = (command.action, command.own, command.peers);
    match row {
        10 => book.set(own, Some(Reserved { whom: US, peers, application: command.application, format })),
        12 => book.set(own, None),
        _ => (),
    }
    let mut words = [0; ANSWER];
    let told = [2, action.into(), status, own.into(), peers.into(), format.into(), changed.into()];
    words[1..8].copy_from_slice(&told);
    Turn { row, sent: Vec::new(), words }
}
