//! What is said of a salvaged table.

use kit::layout::{HEADER, PEER, RECORD, STATE, TID};
use std::fmt::Write;
use wtp::Salvaged;

/// A line for the file, one for each place with what it held, and one that counts; the text can't fail to be written.
pub fn text(file: &str, table: &[u8], places: &[Salvaged], written: bool) -> String {
    let records = table.len().saturating_sub(HEADER) / RECORD;
    let live = (0..records).filter(|place| STATE.of_record(*place).get(table) != 0).count();
    let mut text = format!("{file}: a table of {records} records, {live} of them not free");
    for Salvaged { place, damage } in places {
        let [state, peer, tid] = [STATE, PEER, TID].map(|field| field.of_record(*place).get(table));
        let _ = write!(text, "\nplace {place} (state {state}, peer {peer}, TID {tid}): {damage}");
    }
    let count = match places.len() {
        0 => "well formed: nothing is to be changed".to_string(),
        count if written => format!("{count} places were zeroed; the table is well formed"),
        count => format!("{count} places would be zeroed; --write does it"),
    };
    format!("{text}\n{count}")
}

#[cfg(test)]
mod tests {
    use super::*;
    use kit::layout::table_bytes;
    use wtp::Damage;

    #[test]
    fn each_place_has_a_line_with_what_it_held() {
        let mut table = vec![0; table_bytes(3)];
        [(STATE, 12), (PEER, 7), (TID, 5)].iter().for_each(|(field, value)| field.of_record(2).set(&mut table, *value));
        let places = [Salvaged { place: 2, damage: Damage::OutOfRange }];
        let head =
            "t: a table of 3 records, 1 of them not free\nplace 2 (state 12, peer 7, TID 5): a field was out of range (reason 1)";
        assert_eq!(text("t", &table, &places, false), format!("{head}\n1 places would be zeroed; --write does it"));
        assert_eq!(text("t", &table, &places, true), format!("{head}\n1 places were zeroed; the table is well formed"));
        assert!(text("t", &table, &[], false).ends_with("\nwell formed: nothing is to be changed"));
    }
}
