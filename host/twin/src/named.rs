//! A call for a live record that it names.

use crate::engine::Engine;
use crate::event::Event;
use crate::record::{Name, Record, Role};
use crate::transaction::Transaction;
use crate::{Lent, Row, Said};

/// The rows of a call's refusals 1, 2, 3 and 8.
pub struct Rows {
    pub size: Row,
    pub time: Row,
    pub peer: Row,
    pub no_record: Row,
}

pub struct Named<'a> {
    pub engine: Engine<'a>,
    pub record: Record,
    place: usize,
}

impl<'a> Named<'a> {
    /// Judges 1, 2, 3, 4 where the data is too long, and 8.
    pub fn find(lent: Lent<'a>, now: u64, name: [u64; 3], rows: Rows, too_long: Option<Row>) -> Result<Named<'a>, Said> {
        let engine = Engine::open(lent, now, rows.size, rows.time)?;
        let [role, peer, tid] = name;
        let peer = u8::try_from(peer).map_err(|_| Said { number: 3, row: rows.peer })?;
        if let Some(row) = too_long {
            return Err(Said { number: 4, row });
        }
        let found = name_of(role, peer, tid).and_then(|name| engine.table.find(name));
        let (place, record) = found.ok_or(Said { number: 8, row: rows.no_record })?;
        Ok(Named { engine, record, place })
    }

    pub fn meet(mut self, event: Event) -> Result<Said, Said> {
        let transaction = Transaction { engine: &mut self.engine, place: self.place, record: self.record };
        match transaction.meet(event) {
            Ok(row) => Ok(self.engine.accept(row)),
            Err(row) => Err(Said { number: 9, row }),
        }
    }
}

/// A role or TID out of range names no record.
fn name_of(role: u64, peer: u8, tid: u64) -> Option<Name> {
    let role = match role {
        0 => Role::Initiator,
        1 => Role::Responder,
        _ => return None,
    };
    Some(Name { role, peer, tid: u16::try_from(tid).ok()? })
}
