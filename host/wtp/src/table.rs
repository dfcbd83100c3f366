//! A table of records with all the buffers that the engine is lent.

use crate::deadline::{deadline, Deadline};
use crate::ffi::{self, Lent, Record};
use crate::refused::{accepted, Refused};
use crate::salvaged::{salvaged, Salvaged};
use crate::settings::Settings;
use crate::shown::{Name, Role};
use crate::taken::{self, Places, Taken};

/// One end of the link, for all its peers. `now` is in milliseconds and never runs back; a peer is 0 to 255, a TID 0 to 32,767
/// and a class 0 to 2. It is the library that refuses other values.
#[derive(Debug, Clone, PartialEq, Eq)]
pub struct Table {
    table: Vec<u8>,
    store: Vec<u8>,
    out: Vec<u8>,
    answer: [u64; ffi::ANSWER],
}

impl Table {
    /// A table without a live record; `first_tid` is for its first request.
    pub fn fresh(records: u64, settings: &Settings, first_tid: u16) -> Result<Table, Refused> {
        let bytes = usize::try_from(ffi::table_bytes(records)).map_err(|_| Refused::WrongSize)?;
        let mut table = vec![0; bytes];
        accepted(ffi::fresh(&mut table, &settings.words(), u64::from(first_tid)))?;
        // Only now is the number of records known to be small.
        let cells = usize::try_from(records).map_err(|_| Refused::WrongSize)?;
        let store = vec![0; cells.checked_mul(ffi::CELL).ok_or(Refused::WrongSize)?];
        Ok(Table::kept(table, store))
    }

    /// A table from octets that were kept. They may be any: each call has the library judge them.
    pub fn kept(table: Vec<u8>, store: Vec<u8>) -> Table {
        Table { table, store, out: vec![0; ffi::SENDING], answer: [0; ffi::ANSWER] }
    }

    /// The octets of the table and of its store: all there is to keep.
    pub fn octets(&self) -> (&[u8], &[u8]) {
        (&self.table, &self.store)
    }

    /// Requests a transaction; the TID given to it is in the answer.
    pub fn request(&mut self, now: u64, peer: u16, class: u8, user_ack: bool, data: &[u8]) -> Result<Taken, Refused> {
        let (peer, class, flag) = (u64::from(peer), u64::from(class), u64::from(user_ack));
        accepted(ffi::request(self.lent(), now, peer, class, flag, data))?;
        self.take(&[], true)
    }

    /// Answers the Invoke or the result that was shown; without exit information it is empty.
    pub fn answer(&mut self, now: u64, of: Name, exit_information: &[u8]) -> Result<Taken, Refused> {
        accepted(ffi::answer(self.lent(), now, record(of), exit_information))?;
        self.take(&[], false)
    }

    /// Gives the result of a class 2 transaction, which may be empty.
    pub fn result(&mut self, now: u64, of: Name, data: &[u8]) -> Result<Taken, Refused> {
        accepted(ffi::result(self.lent(), now, record(of), data))?;
        self.take(&[], false)
    }

    /// Aborts a transaction with the user's own reason.
    pub fn abort(&mut self, now: u64, of: Name, reason: u8) -> Result<Taken, Refused> {
        accepted(ffi::abort(self.lent(), now, record(of), reason))?;
        self.take(&[], false)
    }

    /// Takes one PDU that came from `peer`.
    pub fn receive(&mut self, now: u64, peer: u16, pdu: &[u8]) -> Result<Taken, Refused> {
        accepted(ffi::receive(self.lent(), now, u64::from(peer), pdu))?;
        self.take(pdu, false)
    }

    /// Fires one due record; to be called again until none was fired.
    pub fn timer(&mut self, now: u64) -> Result<Taken, Refused> {
        accepted(ffi::timer(self.lent(), now))?;
        self.take(&[], false)
    }

    /// The earliest deadline, of all records that have one: until then nothing is due. Nothing is changed.
    pub fn deadline(&self) -> Result<Option<Deadline>, Refused> {
        let mut due = [0; ffi::DUE];
        accepted(ffi::deadline(&self.table, &mut due))?;
        deadline(&due).ok_or(Refused::Unreadable)
    }

    /// Fires this record, which must be due.
    pub fn fire(&mut self, now: u64, of: Name) -> Result<Taken, Refused> {
        accepted(ffi::fire(self.lent(), now, record(of)))?;
        self.take(&[], false)
    }

    /// Makes a damaged table well formed, and says which places were zeroed for it: none where it was well formed. The store stays.
    pub fn salvage(&mut self) -> Result<Vec<Salvaged>, Refused> {
        let mut list = [0; ffi::SALVAGED];
        accepted(ffi::salvage(&mut self.table, &mut list))?;
        salvaged(&list).ok_or(Refused::Unreadable)
    }

    fn lent(&mut self) -> Lent<'_> {
        Lent { table: &mut self.table, store: &mut self.store, out: &mut self.out, answer: &mut self.answer }
    }

    fn take(&self, pdu: &[u8], requested: bool) -> Result<Taken, Refused> {
        let places = Places { out: &self.out, store: &self.store, pdu };
        taken::take(&self.answer, &places, requested).ok_or(Refused::Unreadable)
    }
}

fn record(of: Name) -> Record {
    let role = match of.role {
        Role::Initiator => 0,
        Role::Responder => 1,
    };
    Record { role, peer: u64::from(of.peer), tid: u64::from(of.tid) }
}
