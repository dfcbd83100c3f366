//! A user's answer, result and abort for a record that they name.

use crate::event::Event;
use crate::named::{Named, Rows};
use crate::record::{Class, Record, ResponderState, State};
use crate::{bounds, Lent, Row, Said};

pub fn answer(lent: Lent, now: u64, role: u64, peer: u64, tid: u64, exit: &[u8]) -> Said {
    let rows = Rows { size: Row::Answer1, time: Row::Answer2, peer: Row::Answer3, no_record: Row::Answer8 };
    let too_long = (exit.len() > bounds::EXIT).then_some(Row::Answer4);
    let said = Named::find(lent, now, [role, peer, tid], rows, too_long).and_then(|named| {
        let refused = if exit.is_empty() { None } else { exit_not_allowed(&named.record) };
        match refused {
            Some(row) => Err(Said { number: 4, row }),
            None => named.meet(Event::UserAnswer { exit }),
        }
    });
    said.unwrap_or_else(|refused| refused)
}

pub fn result(lent: Lent, now: u64, role: u64, peer: u64, tid: u64, data: &[u8]) -> Said {
    let rows = Rows { size: Row::Result1, time: Row::Result2, peer: Row::Result3, no_record: Row::Result8 };
    let too_long = (data.len() > bounds::CELL).then_some(Row::Result4);
    let named = Named::find(lent, now, [role, peer, tid], rows, too_long);
    named.and_then(|named| named.meet(Event::UserResult { data })).unwrap_or_else(|refused| refused)
}

pub fn abort(lent: Lent, now: u64, role: u64, peer: u64, tid: u64, reason: u8) -> Said {
    let rows = Rows { size: Row::Abort1, time: Row::Abort2, peer: Row::Abort3, no_record: Row::Abort8 };
    let named = Named::find(lent, now, [role, peer, tid], rows, None);
    named.and_then(|named| named.meet(Event::UserAbort { reason })).unwrap_or_else(|refused| refused)
}

/// The row of refusal 4 for exit information, where the record is a class 2 responder's.
fn exit_not_allowed(record: &Record) -> Option<Row> {
    match record.state {
        State::Responder(ResponderState::TidokWait(Class::Two)) => Some(Row::RTidokWaitUserAnswerExit),
        State::Responder(ResponderState::InvokeRespWait(Class::Two)) => Some(Row::RInvokeRespWaitUserAnswerExit),
        State::Responder(ResponderState::ResultWait) => Some(Row::RResultWaitUserAnswerExit),
        State::Responder(ResponderState::ResultRespWait) => Some(Row::RResultRespWaitUserAnswerExit),
        _ => None,
    }
}
