//! A list of salvaged places, in words; a word that should be 0 or untouched and isn't is told too.

use crate::desk::UNTOUCHED_WORD;
use wtp::ffi::SALVAGED;

pub fn salvaged(list: &[u64]) -> String {
    let (words, past) = list.split_at(SALVAGED.min(list.len()));
    let places = words.first().copied().unwrap_or_default();
    let entries = usize::try_from(places).map_or(usize::MAX, |places| places.saturating_mul(2));
    let (listed, rest) = words.get(1..).unwrap_or_default().split_at(entries.min(words.len().saturating_sub(1)));
    let each = listed.chunks(2).map(|entry| match entry {
        [place, reason] => format!(", place {place} reason {reason}"),
        _ => String::new(),
    });
    let told: String = each.collect();
    let odd = rest.iter().zip(1 + listed.len()..).filter(|(word, _)| **word != 0);
    let odd: String = odd.map(|(word, at)| format!("; word {at} is {word}")).collect();
    let touched = past.iter().zip(words.len()..).filter(|(word, _)| **word != UNTOUCHED_WORD);
    let touched: String = touched.map(|(_, at)| format!("; changed word {at}")).collect();
    format!("; {places} salvaged{told}{odd}{touched}")
}
