//! A table in words: clock, GenTID, whether TIDnew is due, waiting limit, cached TIDs, live records.

use crate::changes::{records, state_name};
use crate::octets::text;
use kit::layout::{
    AEC, CACHED, CLOCK, COST, DEADLINE, EXIT, EXIT_LENGTH, FLAGS, GEN_TID, LIMIT, MESSAGE, PEER, PEERS, RCR, STATE, TID,
    TIDNEW_DUE, UNKNOWN, WAITING_LIMIT,
};

const MARKS: [&str; 5] = [" user-ack", " HoldOn", " TIDok-sent", " hold-on-sent", " TIDnew"];

pub fn look(table: &[u8]) -> String {
    let due = if TIDNEW_DUE.get(table) == 1 { ", TIDnew due" } else { "" };
    let limit = if_any(", waiting limit", WAITING_LIMIT.get(table));
    let mut told = format!(": clock {}, next TID {}{due}{limit}", CLOCK.get(table), GEN_TID.get(table));
    for peer in 0..PEERS {
        if let Some(last) = CACHED.moved(2 * peer).get(table).checked_sub(1) {
            told += &format!(", last of {peer} is {last}");
        }
    }
    let live = records(table).enumerate().filter(|(_, record)| STATE.get(record) != 0);
    told + &live.map(|(place, record)| told_record(place, record)).collect::<String>()
}

fn told_record(place: usize, record: &[u8]) -> String {
    let get = |field: kit::layout::Field| field.get(record);
    let state = state_name(get(STATE));
    let counters = format!("{}/{} RCR {} AEC {}", get(PEER), get(TID), get(RCR), get(AEC));
    let due = format!("due {}{}", get(DEADLINE), if_any(" limit", get(LIMIT)));
    let rest = format!("length {}{}{}{}", get(MESSAGE), marks(get(FLAGS)), if_any(" unknown", get(UNKNOWN)), exit(record));
    format!("; record {place} {state} {counters} {due} {rest}{}", if_any(" cost", get(COST)))
}

/// The number with its name, and nothing where it is 0.
fn if_any(name: &str, number: u64) -> String {
    match number {
        0 => String::new(),
        _ => format!("{name} {number}"),
    }
}

fn marks(flags: u64) -> String {
    MARKS.iter().enumerate().filter(|(bit, _)| flags >> bit & 1 == 1).map(|(_, mark)| *mark).collect()
}

/// The exit information, as far as the record has it.
fn exit(record: &[u8]) -> String {
    let said = &record[EXIT..];
    match usize::try_from(EXIT_LENGTH.get(record)).map_or(said.len(), |length| length.min(said.len())) {
        0 => String::new(),
        length => format!(" exit {}", text(&said[..length])),
    }
}
