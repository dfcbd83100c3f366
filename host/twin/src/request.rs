//! The request of a transaction.

use crate::engine::Engine;
use crate::record::{Class, InitiatorState, Name, Record, Role, State};
use crate::{bounds, sending, Lent, Row, Said};

pub fn request(lent: Lent, now: u64, peer: u64, class: u64, user_ack: u64, data: &[u8]) -> Said {
    carry_out(lent, now, peer, class, user_ack != 0, data).unwrap_or_else(|refused| refused)
}

fn carry_out(lent: Lent, now: u64, peer: u64, class: u64, user_ack: bool, data: &[u8]) -> Result<Said, Said> {
    let mut engine = Engine::open(lent, now, Row::Request1, Row::Request2)?;
    let peer = u8::try_from(peer).map_err(|_| Said { number: 3, row: Row::Request3 })?;
    if data.len() > bounds::CELL {
        return Err(Said { number: 4, row: Row::Request4 });
    }
    let class = wanted_class(class).ok_or(Said { number: 5, row: Row::Request5 })?;
    let tid = engine.table.gen_tid();
    if engine.table.has_initiator(tid) {
        return Err(Said { number: 6, row: Row::Request6 });
    }
    let name = Name { role: Role::Initiator, peer, tid };
    let tidnew = class.is_some() && engine.table.tidnew_due();
    if let Some(class) = class {
        let place = engine.table.free_place().ok_or(Said { number: 7, row: Row::Request7 })?;
        let state = State::Initiator(InitiatorState::ResultWait(class));
        let record = Record { tidnew, ..Record::new(state, peer, tid, user_ack) };
        open_record(&mut engine, place, class, record, data);
        engine.table.set_tidnew_due(false);
    }
    engine.send_with(&sending::invoke(false, name, class.map_or(0, |class| class as u8), user_ack, tidnew), data);
    let wraps = count_up(&mut engine, tid);
    engine.answer.requested(tid);
    Ok(engine.accept(reached(class, tidnew, wraps)))
}

/// GenTID of the next request; where that is 0 again, TIDnew is due, after this request's own.
fn count_up(engine: &mut Engine, tid: u16) -> bool {
    let next = tid.wrapping_add(1) & bounds::TID;
    engine.table.set_gen_tid(next);
    if next == 0 {
        engine.table.set_tidnew_due(true);
    }
    next == 0
}

/// `Some(None)` is class 0, which opens no record.
fn wanted_class(class: u64) -> Option<Option<Class>> {
    match class {
        0 => Some(None),
        1 => Some(Some(Class::One)),
        2 => Some(Some(Class::Two)),
        _ => None,
    }
}

fn open_record(engine: &mut Engine, place: usize, class: Class, mut record: Record, data: &[u8]) {
    record.deadline = Some(engine.now + engine.table.interval_r(class, 0));
    record.message_length = data.len() as u32;
    record.cost = bounds::BARE_INVOKE + data.len() as u32;
    engine.table.put(place, &record);
    engine.keep(place, data);
    engine.answer.cost(record.cost);
}

fn reached(class: Option<Class>, tidnew: bool, wraps: bool) -> Row {
    match (class, tidnew, wraps) {
        (None, _, false) => Row::RequestClass0,
        (None, _, true) => Row::RequestClass0Wraps,
        (Some(Class::One), false, false) => Row::RequestClass1,
        (Some(Class::One), false, true) => Row::RequestClass1Wraps,
        (Some(Class::One), true, false) => Row::RequestClass1Tidnew,
        (Some(Class::One), true, true) => Row::RequestClass1TidnewWraps,
        (Some(Class::Two), false, false) => Row::RequestClass2,
        (Some(Class::Two), false, true) => Row::RequestClass2Wraps,
        (Some(Class::Two), true, false) => Row::RequestClass2Tidnew,
        (Some(Class::Two), true, true) => Row::RequestClass2TidnewWraps,
    }
}
