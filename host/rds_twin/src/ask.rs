//! Our calls: rows O1 to O4.

use crate::book::{self, Book, Outstanding};
use crate::frame::{Body, Managed, Part, Ports, RELEASE, RESERVE, RESERVE_WITH_FORMAT};
use crate::octets::octets;
use crate::row::Row;
use crate::transfer::u_frame;
use crate::{Lent, Said, ANSWER, NOTHING_KEPT, NOT_NOW, WRONG_LENGTH, WRONG_SIZE, WRONG_VALUE};

pub fn reserve(lent: Lent, own: u64, peers: u64, with_format: u64, app: &[u8]) -> Said {
    let mut book = match book::lent(lent.book, lent.out, lent.answer) {
        Some(book) => book,
        None => return Said::refused(WRONG_SIZE),
    };
    if book.command.is_some() || book.port(own).is_some() || with_format != 0 && book.formats == 0 {
        return Said::refused(NOT_NOW);
    }
    if !(1..=15).contains(&own) || peers > 15 {
        return Said::refused(WRONG_VALUE);
    }
    if app.get(16).map_or(true, |length| app.len() != 17 + usize::from(*length)) {
        return Said::refused(WRONG_LENGTH);
    }
    let action = if with_format == 0 { RESERVE } else { RESERVE_WITH_FORMAT };
    let command = Outstanding { action, own: own as u8, peers: peers as u8, application: app.to_vec() };
    send(&book, &command, lent.out, lent.answer);
    book.command = Some(command);
    book.write(lent.book);
    Said::accepted(Some(Row::Ours(1)))
}

pub fn release(lent: Lent, own: u64) -> Said {
    let mut book = match book::lent(lent.book, lent.out, lent.answer) {
        Some(book) => book,
        None => return Said::refused(WRONG_SIZE),
    };
    let command = match book.port(own) {
        Some(kept) => Outstanding { action: RELEASE, own: own as u8, peers: kept.peers, application: kept.application.clone() },
        None => return Said::refused(NOTHING_KEPT),
    };
    if book.command.is_some() {
        return Said::refused(NOT_NOW);
    }
    send(&book, &command, lent.out, lent.answer);
    book.command = Some(command);
    book.write(lent.book);
    Said::accepted(Some(Row::Ours(2)))
}

pub fn again(book: &[u8], out: &mut [u8], answer: &mut [u64]) -> Said {
    let book = match book::lent(book, out, answer) {
        Some(book) => book,
        None => return Said::refused(WRONG_SIZE),
    };
    match &book.command {
        Some(command) => {
            send(&book, command, out, answer);
            Said::accepted(Some(Row::Ours(3)))
        }
        None => Said::refused(NOTHING_KEPT),
    }
}

pub fn abandon(octets: &mut [u8]) -> Said {
    let mut book = match Book::read(octets) {
        Some(book) => book,
        None => return Said::refused(WRONG_SIZE),
    };
    if book.command.take().is_none() {
        return Said::refused(NOTHING_KEPT);
    }
    book.write(octets);
    Said::accepted(Some(Row::Ours(4)))
}

/// The frame of a command at the start of the output.
fn send(book: &Book, command: &Outstanding, out: &mut [u8], answer: &mut [u64]) {
    let managed = Managed::Command {
        ports: Ports { source: command.own, destination: command.peers },
        application: Part { start: 0, length: command.application.len() },
        format: (command.action == RESERVE_WITH_FORMAT).then_some(book.formats),
    };
    let frame = u_frame(false, Body::ManagePort { action: command.action, managed });
    let octets = octets(&frame, book.network, &command.application);
    out[..octets.len()].copy_from_slice(&octets);
    answer[..ANSWER].fill(0);
    answer[0] = octets.len() as u64;
}
