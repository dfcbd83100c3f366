//! Runs random and hostile calls through the proved libraries and the twins, and compares all that they answer.

#![deny(unsafe_code)]

mod aim;
mod buffers;
mod calls;
mod codec;
mod costs;
mod damage;
mod data;
mod datagrams;
mod differences;
mod engine;
mod fresh;
mod items;
mod pair;
mod pdus;
#[cfg(test)]
mod planted;
mod rds;
mod report;
mod salvage;
mod session;
mod sides;
mod sizes;
mod tally;
mod view;

use kit::args::Switches;
use kit::program::{Program, FAILED};
use kit::{say, with_commas, Random};
use pair::{End, Pair};
use std::process::ExitCode;
use twin::Row;

const HELP: &str = "\
Runs random and hostile calls through the proved libraries and the twins, and compares all that they answer.

Usage: compare [--seed N] [--calls N] [--rds-calls N] [--rows]

  --seed N       the seed of the random calls; the same seed gives the same calls (default 1)
  --calls N      how many calls to make (default 1000000)
  --rds-calls N  how many calls of the Reliable Data Service to make after them and after all frames of up to two octets
                 (default 150000)
  --rows         only list the rows that must be reached, and make no call
  --help         this text

Where a timer call fires a record, the same is done once more on copies by the calls deadline and fire, and must leave the same.
A table that was salvaged must be well formed and the same when it is salvaged again; then calls go on with it.
Progress goes to the standard error. At the end each row and each outcome of the codec is listed with how often it was reached, and
each row of a received PDU and of a plain Ack with how often an unknown item was in it, and an Error item, and each row of an
initiator's record with how often it told a cost, and the end where the record ends.
Exit status: 0 all calls the same and every row reached, 1 a difference or a row never reached, 2 wrong arguments.

Example: compare --seed 7 --calls 5000000";

fn main() -> ExitCode {
    let switches = Switches { valued: &["--seed", "--calls", "--rds-calls"], flags: &["--rows"] };
    Program { name: "compare", help: HELP, switches }.run(|given| {
        let [] = given.all_names([])?;
        let number = |switch, default| given.number(switch, default, 0..=u64::MAX);
        let (seed, calls) = (number("--seed", 1)?, number("--calls", 1_000_000)?);
        let rds_calls = number("--rds-calls", 150_000)?;
        if given.has("--rows") {
            say::out(&rows());
            return Ok(0);
        }
        let (told, status) = compare(seed, calls);
        say::out(&told);
        let (told, good) = rds::compare(seed, rds_calls);
        say::out(&told);
        Ok(if good { status } else { FAILED })
    })
}

fn rows() -> String {
    Row::ALL.iter().map(|row| row.name()).collect::<Vec<_>>().join("\n")
}

/// What is to be told at the end, and the exit status.
fn compare(seed: u64, calls: u64) -> (String, u8) {
    let mut pair = Pair::new([sides::library, sides::twin], calls);
    let end = session::play_all(&mut Random::new(seed), &mut pair);
    let made = with_commas(pair.tally.calls);
    if let End::Different(found) = end {
        return (format!("{}{made} calls the same, 1 different", report::report(seed, &found)), FAILED);
    }
    let missing = pair.tally.never_reached();
    let listed: String = missing.iter().map(|name| format!("never reached: {name}\n")).collect();
    let (reached, all) = (pair.tally.rows_reached(), Row::ALL.len());
    let told = format!("{}{listed}{made} calls the same, 0 different; {reached} of {all} rows reached", pair.tally);
    (told, if missing.is_empty() { 0 } else { FAILED })
}
