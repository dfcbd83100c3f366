//! Document 02, L12: a damaged table is made well formed, and each place that was changed for it is listed.

use crate::bounds;
use crate::table::{Judged, Table};
use crate::words::SALVAGED;
use crate::{Row, Said};

/// Why a place is zeroed.
#[derive(Clone, Copy, Debug, PartialEq, Eq)]
enum Reason {
    OutOfRange = 1,
    FreeNotZero = 2,
    SameName = 3,
}

pub fn salvage(table: &mut [u8], list: &mut [u64]) -> Said {
    let (mut table, list) = match (Table::of_size(table), list.get_mut(..SALVAGED)) {
        (Some(table), Some(list)) => (table, list),
        _ => return Said { number: 1, row: Row::Salvage1 },
    };
    if !table.header_is_sound() {
        return Said { number: 15, row: Row::Salvage15 };
    }
    let mut reasons = [None; bounds::RECORDS];
    free_where(&mut table, &mut reasons, by_itself);
    free_where(&mut table, &mut reasons, by_its_name);
    write(&reasons, list);
    Said { number: 0, row: if list[0] == 0 { Row::SalvageNothing } else { Row::SalvageChanged } }
}

/// Frees each place that something is wrong with, from the lowest on, so that one that is freed doesn't count any more.
fn free_where(
    table: &mut Table<&mut [u8]>,
    reasons: &mut [Option<Reason>],
    wrong: fn(&Table<&mut [u8]>, usize) -> Option<Reason>,
) {
    for (place, noted) in reasons.iter_mut().enumerate().take(table.records()) {
        if let Some(reason) = wrong(table, place) {
            table.free(place);
            *noted = Some(reason);
        }
    }
}

fn by_itself(table: &Table<&mut [u8]>, place: usize) -> Option<Reason> {
    match table.judged(place) {
        Judged::Free | Judged::Live(_) => None,
        Judged::FreeNotZero => Some(Reason::FreeNotZero),
        Judged::OutOfRange => Some(Reason::OutOfRange),
    }
}

fn by_its_name(table: &Table<&mut [u8]>, place: usize) -> Option<Reason> {
    let name = match table.judged(place) {
        Judged::Live(name) => name,
        _ => return None,
    };
    table.find(name).filter(|(lowest, _)| *lowest < place).map(|_| Reason::SameName)
}

/// How many places, then each with its reason, then zeros.
fn write(reasons: &[Option<Reason>], list: &mut [u64]) {
    list.fill(0);
    let changed = reasons.iter().enumerate().filter_map(|(place, reason)| Some((place, (*reason)?)));
    for (entry, (place, reason)) in list[1..].chunks_exact_mut(2).zip(changed) {
        entry.copy_from_slice(&[place as u64, reason as u64]);
    }
    list[0] = reasons.iter().flatten().count() as u64;
}
