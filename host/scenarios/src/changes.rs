//! Which records a call changed, by their octets.

use kit::layout::{HEADER, RECORD, STATE};

/// The states in the order of their numbers.
const NAMES: [&str; 12] = [
    "Free",
    "IResultWait1",
    "IResultWait2",
    "IResultRespWait",
    "IWaitTimeout",
    "RTidokWait1",
    "RTidokWait2",
    "RInvokeRespWait1",
    "RInvokeRespWait2",
    "RResultWait",
    "RResultRespWait",
    "RWaitTimeout",
];

pub fn state_name(state: u64) -> String {
    let name = usize::try_from(state).ok().and_then(|state| NAMES.get(state));
    name.map_or_else(|| format!("state {state}"), |name| name.to_string())
}

/// The octets of each record of a table.
pub fn records(table: &[u8]) -> impl Iterator<Item = &[u8]> {
    table.get(HEADER..).unwrap_or_default().chunks_exact(RECORD)
}

/// Place, state before and state after of each record whose octets differ; nothing where none does.
pub fn changes(before: &[u8], after: &[u8]) -> String {
    let both = records(before).zip(records(after)).enumerate();
    let changed = both.filter(|(_, (before, after))| before != after);
    let state = |record| state_name(STATE.get(record));
    let told: Vec<String> = changed.map(|(place, (old, new))| format!("{place}: {} -> {}", state(old), state(new))).collect();
    if told.is_empty() {
        String::new()
    } else {
        format!(" {{{}}}", told.join(", "))
    }
}
