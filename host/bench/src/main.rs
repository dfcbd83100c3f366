//! What a call of the proved library costs beside the twin: ns from a clock, instructions from a file that a script counts.

#![deny(unsafe_code)]

mod call;
mod cases;
mod frames;
mod instructions;
mod ns;
mod pdus;
mod report;
mod side;
mod start;

use cases::{Case, Of};
use instructions::Counts;
use kit::args::{number, Given, Switches};
use kit::program::{Program, FAILED};
use kit::say;
use side::SIDES;
use std::process::ExitCode;

const HELP: &str = "\
Measures what a call of the proved library costs beside the twin, and prints a table in Markdown.

usage: bench [--rds] [--quick] [--instructions FILE]
       bench [--rds] --list
       bench --one CASE SIDE TIMES

  --rds                the cases of the Reliable Data Service instead of those of WTP
  --quick              fewer and shorter rounds (5 of 1 ms a side instead of 21 of 5 ms)
  --instructions FILE  counts for the table: a line a case with its name, the library's count and the twin's, divided by tabs
  --list               prints the names of the cases, a line each
  --one                makes one call so many times, for a program that counts instructions; SIDE is library, twin or nothing
  --help               prints this

Both sides' answers are compared in every case before anything is measured; a difference ends the run with status 1.
host/bench/run.sh counts the instructions and calls this program with them.

example: bench --one 'receive an Ack:48' library 100";

fn main() -> ExitCode {
    let switches = Switches { valued: &["--instructions"], flags: &["--rds", "--quick", "--list", "--one"] };
    Program { name: "bench", help: HELP, switches }.run(|given| {
        if given.has("--one") {
            asked_for_one(given)
        } else {
            asked_for_all(given)
        }
    })
}

fn asked_for_one(given: &Given) -> Result<u8, String> {
    let [case, side, times] = given.all_names(["CASE", "SIDE", "TIMES"])?;
    let times = number("TIMES", times, 0..=u64::MAX)?;
    Ok(status(one(case, side, times)))
}

fn asked_for_all(given: &Given) -> Result<u8, String> {
    let ([], file) = (given.all_names([])?, given.text("--instructions")?);
    let of = if given.has("--rds") { Of::Rds } else { Of::Wtp };
    Ok(status(if given.has("--list") { list(of) } else { table(of, given.has("--quick"), file) }))
}

/// The exit status; what went wrong is said.
fn status(done: Result<(), String>) -> u8 {
    let failed = |wrong| {
        say::err(&format!("bench: {wrong}"));
        FAILED
    };
    done.map_or_else(failed, |()| 0)
}

fn list(of: Of) -> Result<(), String> {
    say::out(&cases::keys(of).join("\n"));
    Ok(())
}

fn one(key: &str, side: &str, times: u64) -> Result<(), String> {
    let case = cases::case(key)?;
    let (_, calls) = SIDES.iter().find(|(name, _)| *name == side).ok_or_else(|| format!("no side '{side}'"))?;
    let sum = ns::repeat(&case, *calls, &mut case.start.clone(), times);
    let right = if side == "nothing" { 0 } else { case.number * times };
    (sum == right).then_some(()).ok_or_else(|| format!("'{key}' didn't answer the same each time"))
}

fn table(of: Of, quick: bool, file: Option<&str>) -> Result<(), String> {
    let counts = file.map_or(Ok(Counts::new()), counts)?;
    let cases = cases::all(of)?;
    cases.iter().try_for_each(Case::agrees)?;
    let plan = if quick { ns::QUICK } else { ns::FULL };
    say::out(report::HEAD);
    for case in &cases {
        say::out(&report::row(case, counts.get(&case.key()), &ns::measure(case, &plan)));
    }
    Ok(())
}

fn counts(file: &str) -> Result<Counts, String> {
    let text = std::fs::read_to_string(file).map_err(|wrong| format!("{file} can't be read: {wrong}"))?;
    instructions::parse(&text).map_err(|wrong| format!("{file}: {wrong}"))
}
