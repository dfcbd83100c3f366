//! Tells a difference so that someone can repeat it and look into it.

use crate::pair::Found;
use crate::view::View;
use kit::layout;
use std::fmt::Write;

/// The report of a difference; the text can't fail to be written.
pub fn report(seed: u64, found: &Found) -> String {
    let mut told = String::new();
    let number = found.number;
    let _ = writeln!(told, "different: seed {seed}, call {number}; repeat it with: compare --seed {seed} --calls {number}");
    let _ = writeln!(told, "{}", found.call);
    let [left, right] = found.names;
    let _ = writeln!(told, "  numbers: {left} {}, {right} {}", found.said[0].number, found.said[1].number);
    if let Some(row) = found.said[1].row {
        let _ = writeln!(told, "  row of the twin: {}", row.name());
    }
    let _ = writeln!(told, "  {}", found.difference.told(found.names));
    tell_table(&found.table, &mut told);
    told
}

/// The header and the live records of the table that the call was lent.
fn tell_table(table: &[u8], told: &mut String) {
    let places = table.len().saturating_sub(layout::HEADER) / layout::RECORD;
    let view = View::new(table, places);
    let [clock, gen_tid, due] = [layout::CLOCK, layout::GEN_TID, layout::TIDNEW_DUE].map(|field| view.get(field));
    let _ = write!(told, "  table before: clock {clock}, GenTID {gen_tid}, TIDnew due {due}, ");
    let [rcr_max, aec_max] = [layout::RCR_MAX, layout::AEC_MAX].map(|field| view.get(field));
    let [modes, limit] = [layout::MODES, layout::WAITING_LIMIT].map(|field| view.get(field));
    let _ = writeln!(told, "RCR_MAX {rcr_max}, AEC_MAX {aec_max}, modes {modes}, waiting limit {limit}");
    let intervals: Vec<u64> = (0..layout::INTERVALS).map(|step| view.get(layout::INTERVAL.moved(4 * step))).collect();
    let _ = writeln!(told, "  A, W, R of class 1, R of class 2: {intervals:?}");
    for peer in 0..layout::PEERS as u64 {
        if let Some(last) = view.last_tid(peer) {
            let _ = writeln!(told, "  LastTID of peer {peer}: {last}");
        }
    }
    // The last place is past the table that was lent.
    for place in 0..places.saturating_sub(1) {
        if view.record(place).is_some() {
            tell_record(view, place, told);
        }
    }
}

fn tell_record(view: View, place: usize, told: &mut String) {
    let fields = [
        ("state", layout::STATE),
        ("peer", layout::PEER),
        ("TID", layout::TID),
        ("RCR", layout::RCR),
        ("AEC", layout::AEC),
        ("flags", layout::FLAGS),
        ("exit length", layout::EXIT_LENGTH),
        ("deadline", layout::DEADLINE),
        ("message length", layout::MESSAGE),
        ("waiting limit in force", layout::LIMIT),
        ("unknown item", layout::UNKNOWN),
        ("cost", layout::COST),
    ];
    let _ = write!(told, "  record {place}:");
    for (name, field) in fields {
        let _ = write!(told, " {name} {}", view.get(field.of_record(place)));
    }
    let _ = writeln!(told);
}
