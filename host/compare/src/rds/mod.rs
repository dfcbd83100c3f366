//! The same for the Reliable Data Service: librds.a beside host/rds_twin, the plain reading of docs/RDS.md.

mod books;
mod call;
mod fields;
mod frames;
mod manage;
mod pair;
#[cfg(test)]
mod planted;
mod session;
mod sides;
mod tally;

use kit::{with_commas, Random};
use pair::Pair;

/// What is to be told at the end, and whether all calls were the same and every row was reached.
pub fn compare(seed: u64, calls: u64) -> (String, bool) {
    let mut pair = Pair::new([sides::library, sides::twin]);
    let end = session::play_all(&mut Random::new(seed), &mut pair, calls);
    let made = with_commas(pair.tally.calls);
    if let Err(found) = end {
        return (format!("different: seed {seed}, {found}\nRDS: {made} calls the same, 1 different"), false);
    }
    let missing = pair.tally.never_reached();
    let listed: String = missing.iter().map(|name| format!("never reached: {name}\n")).collect();
    let told = format!("{}{listed}RDS: {made} calls the same, 0 different; {}", pair.tally, pair.tally.rows_reached());
    (told, missing.is_empty())
}
