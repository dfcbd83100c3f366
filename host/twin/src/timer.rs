//! The timer call, and the two calls that it is split into: the earliest deadline, and the firing of a record that is named.

use crate::answer::words_of;
use crate::engine::Engine;
use crate::event::Event;
use crate::named::{Named, Rows};
use crate::record::Record;
use crate::table::Table;
use crate::transaction::Transaction;
use crate::words::DUE;
use crate::{Lent, Row, Said};
use std::ops::Deref;

pub fn timer(lent: Lent, now: u64) -> Said {
    match Engine::open(lent, now, Row::Timer1, Row::Timer2) {
        Ok(mut engine) => {
            let row = fire_earliest(&mut engine);
            engine.accept(row)
        }
        Err(refused) => refused,
    }
}

/// Fires the record with the earliest deadline, where it is due.
fn fire_earliest(engine: &mut Engine) -> Row {
    match earliest(&engine.table).filter(|(deadline, ..)| *deadline <= engine.now) {
        Some((_, place, record)) => {
            engine.answer.fired(record.name());
            // A firing is never refused, so that both cases are the row.
            Transaction { engine, place, record }.meet(Event::Timer).unwrap_or_else(|row| row)
        }
        None => Row::TimerNoneDue,
    }
}

/// The live record with the earliest deadline, the lowest place on ties: its deadline, its place and itself.
fn earliest<O: Deref<Target = [u8]>>(table: &Table<O>) -> Option<(u64, usize, Record)> {
    let with_deadline = table.live().filter_map(|(place, record)| Some((record.deadline?, place, record)));
    with_deadline.min_by_key(|(deadline, place, _)| (*deadline, *place))
}

pub fn deadline(table: &[u8], due: &mut [u64]) -> Said {
    let (table, due) = match (Table::open(table), due.get_mut(..DUE)) {
        (Some(table), Some(due)) => (table, due),
        _ => return Said { number: 1, row: Row::Deadline1 },
    };
    match earliest(&table) {
        Some((deadline, _, record)) => {
            let [role, peer, tid] = words_of(record.name());
            due.copy_from_slice(&[1, deadline, role, peer, tid]);
            Said { number: 0, row: Row::DeadlineTold }
        }
        None => {
            due.fill(0);
            Said { number: 0, row: Row::DeadlineNone }
        }
    }
}

pub fn fire(lent: Lent, now: u64, role: u64, peer: u64, tid: u64) -> Said {
    let rows = Rows { size: Row::Fire1, time: Row::Fire2, peer: Row::Fire3, no_record: Row::Fire8 };
    Named::find(lent, now, [role, peer, tid], rows, None).and_then(fire_named).unwrap_or_else(|refused| refused)
}

fn fire_named(mut named: Named) -> Result<Said, Said> {
    match named.record.deadline {
        None => Err(Said { number: 9, row: Row::FireNoDeadline }),
        Some(deadline) if deadline > named.engine.now => Err(Said { number: 9, row: Row::FireNotDue }),
        Some(_) => {
            named.engine.answer.fired(named.record.name());
            named.meet(Event::Timer)
        }
    }
}
