//! A well-formed table in the octets that a caller lent.

use crate::bounds;
use crate::octets::{array_at, put_at};
use crate::record::{Class, Name, Record, Role, EXIT, OCTETS};
use std::ops::{Deref, DerefMut};

pub const HEADER: usize = 624;
pub const GEN_TID: usize = 8;
pub const RCR_MAX: usize = 10;
pub const AEC_MAX: usize = 11;
/// A, W, nine R of class 1 and nine R of class 2, four octets each.
pub const INTERVALS: usize = 12;
pub const WAITING_LIMIT: usize = 92;
pub const MODES: usize = 96;
pub const TIDNEW_DUE: usize = 97;
const SPARE: usize = 98;
const CACHE: usize = 112;

/// Over octets that may be changed, or over octets that may only be read.
pub struct Table<O> {
    octets: O,
}

/// What a record's octets say by themselves.
#[derive(Clone, Copy, Debug, PartialEq, Eq)]
pub enum Judged {
    Free,
    /// Free by its state, and not zero.
    FreeNotZero,
    /// Of an unknown state, or live with a field out of range.
    OutOfRange,
    Live(Name),
}

/// How many records a table of this size has, if it is one of 1 to 48 records.
pub fn records_in(octets: usize) -> Option<usize> {
    let records = octets.checked_sub(HEADER)?;
    (records % OCTETS == 0 && (1..=bounds::RECORDS).contains(&(records / OCTETS))).then_some(records / OCTETS)
}

/// Whether modes and waiting limit go together: no mode and no limit, or mode 1 and a limit.
pub fn is_waiting_limit(modes: u64, limit: u64) -> bool {
    match modes {
        0 => limit == 0,
        1 => (1..=bounds::INTERVAL.into()).contains(&limit),
        _ => false,
    }
}

impl<O: Deref<Target = [u8]>> Table<O> {
    /// The table, if it has a right size and is well formed.
    pub fn open(octets: O) -> Option<Table<O>> {
        let table = Table::of_size(octets)?;
        (table.header_is_sound() && table.records_are_sound()).then_some(table)
    }

    /// The table, if it has a right size, whatever it holds.
    pub fn of_size(octets: O) -> Option<Table<O>> {
        records_in(octets.len())?;
        Some(Table { octets })
    }

    pub fn header_is_sound(&self) -> bool {
        let mut intervals =
            self.octets[INTERVALS..WAITING_LIMIT].chunks_exact(4).map(|four| u32::from_le_bytes(array_at(four, 0)));
        let cached = self.octets[CACHE..HEADER].chunks_exact(2).map(|two| u16::from_le_bytes(array_at(two, 0)));
        self.clock() <= bounds::TIME
            && self.gen_tid() <= bounds::TID
            && self.rcr_max() <= bounds::COUNTER
            && self.aec_max() <= bounds::COUNTER
            && intervals.all(|interval| (1..=bounds::INTERVAL).contains(&interval))
            && is_waiting_limit(self.octets[MODES].into(), self.waiting_limit())
            && self.octets[TIDNEW_DUE] <= 1
            && self.octets[SPARE..CACHE] == [0; CACHE - SPARE]
            && cached.fold(0, u16::max) <= bounds::TID + 1
    }

    /// Free records are zero, live ones have their fields in range and names of their own.
    fn records_are_sound(&self) -> bool {
        let mut names = [0; bounds::RECORDS];
        let mut live = 0;
        for place in 0..self.records() {
            match self.judged(place) {
                Judged::Free => {}
                Judged::Live(name) => {
                    names[live] = packed(name);
                    live += 1;
                }
                Judged::FreeNotZero | Judged::OutOfRange => return false,
            }
        }
        let names = &mut names[..live];
        names.sort_unstable();
        names.windows(2).all(|pair| pair[0] != pair[1])
    }

    /// The record at a place by itself, with the table's own RCR_MAX and AEC_MAX.
    pub fn judged(&self, place: usize) -> Judged {
        let octets = &self.octets[HEADER + OCTETS * place..][..OCTETS];
        if octets[0] == 0 {
            return if *octets == [0; OCTETS] { Judged::Free } else { Judged::FreeNotZero };
        }
        match Record::decode(octets) {
            Some(record) if record.is_sound(octets, self.rcr_max(), self.aec_max()) => Judged::Live(record.name()),
            _ => Judged::OutOfRange,
        }
    }

    pub fn records(&self) -> usize {
        (self.octets.len() - HEADER) / OCTETS
    }

    /// The live records with their places.
    pub fn live(&self) -> impl Iterator<Item = (usize, Record)> + '_ {
        let octets = self.octets[HEADER..].chunks_exact(OCTETS).enumerate();
        octets.filter_map(|(place, octets)| Record::decode(octets).map(|record| (place, record)))
    }

    pub fn find(&self, name: Name) -> Option<(usize, Record)> {
        self.live().find(|(_, record)| record.name() == name)
    }

    pub fn has_initiator(&self, tid: u16) -> bool {
        self.live().any(|(_, record)| record.state.role() == Role::Initiator && record.tid == tid)
    }

    /// The lowest free record's place.
    pub fn free_place(&self) -> Option<usize> {
        self.octets[HEADER..].chunks_exact(OCTETS).position(|octets| octets[0] == 0)
    }

    pub fn exit(&self, place: usize, length: u8) -> &[u8] {
        &self.octets[HEADER + OCTETS * place + EXIT..][..length.into()]
    }

    pub fn clock(&self) -> u64 {
        u64::from_le_bytes(array_at(&self.octets, 0))
    }

    pub fn gen_tid(&self) -> u16 {
        u16::from_le_bytes(array_at(&self.octets, GEN_TID))
    }

    /// Whether the next Invoke of class 1 or 2 carries TIDnew.
    pub fn tidnew_due(&self) -> bool {
        self.octets[TIDNEW_DUE] != 0
    }

    pub fn rcr_max(&self) -> u8 {
        self.octets[RCR_MAX]
    }

    pub fn aec_max(&self) -> u8 {
        self.octets[AEC_MAX]
    }

    fn interval(&self, which: usize) -> u64 {
        u32::from_le_bytes(array_at(&self.octets, INTERVALS + 4 * which)).into()
    }

    pub fn interval_a(&self) -> u64 {
        self.interval(0)
    }

    pub fn interval_w(&self) -> u64 {
        self.interval(1)
    }

    pub fn interval_r(&self, class: Class, rcr: u8) -> u64 {
        let row = match class {
            Class::One => 2,
            Class::Two => 11,
        };
        self.interval(row + usize::from(rcr))
    }

    /// How long a wait without a timer may last; 0 where the mode is off.
    pub fn waiting_limit(&self) -> u64 {
        u32::from_le_bytes(array_at(&self.octets, WAITING_LIMIT)).into()
    }

    pub fn last_tid(&self, peer: u8) -> Option<u16> {
        u16::from_le_bytes(array_at(&self.octets, CACHE + 2 * usize::from(peer))).checked_sub(1)
    }
}

impl<O: DerefMut<Target = [u8]>> Table<O> {
    fn octets_of(&mut self, place: usize) -> &mut [u8] {
        &mut self.octets[HEADER + OCTETS * place..][..OCTETS]
    }

    pub fn put(&mut self, place: usize, record: &Record) {
        record.encode(self.octets_of(place));
    }

    pub fn free(&mut self, place: usize) {
        self.octets_of(place).fill(0);
    }

    /// Octets past the exit information stay.
    pub fn put_exit(&mut self, place: usize, exit: &[u8]) {
        put_at(self.octets_of(place), EXIT, exit);
    }

    pub fn set_clock(&mut self, now: u64) {
        put_at(&mut self.octets, 0, &now.to_le_bytes());
    }

    pub fn set_gen_tid(&mut self, tid: u16) {
        put_at(&mut self.octets, GEN_TID, &tid.to_le_bytes());
    }

    pub fn set_tidnew_due(&mut self, due: bool) {
        self.octets[TIDNEW_DUE] = due.into();
    }

    pub fn set_last_tid(&mut self, peer: u8, tid: u16) {
        put_at(&mut self.octets, CACHE + 2 * usize::from(peer), &(tid + 1).to_le_bytes());
    }

    pub fn drop_last_tid(&mut self, peer: u8) {
        put_at(&mut self.octets, CACHE + 2 * usize::from(peer), &[0; 2]);
    }
}

fn packed(name: Name) -> u32 {
    (name.role as u32) << 23 | u32::from(name.peer) << 15 | u32::from(name.tid)
}
