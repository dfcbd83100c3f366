//! salvage: makes the table in a file well formed again, or says what it would change.

#![forbid(unsafe_code)]

mod file;
mod report;

use file::TableFile;
use kit::args::{Given, Switches};
use kit::program::{Program, FAILED};
use kit::{say, whole};
use std::process::ExitCode;

const HELP: &str = "\
Usage: salvage [--write] FILE

Says what would have to be changed in a table that a brown-out damaged, place by place, so that it is well formed again; with
--write it is changed. FILE is a table as the library has it, or a state file of reader or gateway. A record is freed where a
field of it is out of range (reason 1), where it is free and not zero (reason 2), and where it shares role, peer and TID with a
live record of a lower place (reason 3). Everything else in the file stays. The new file is written beside the old one, brought
to the disk and moved to its place: who is cut off at any moment finds the one or the other.

  --write  change the file
  --help   this text

Exit status: 0 nothing is to be changed, or it was changed; 1 something is to be changed and wasn't; 2 wrong arguments, or a file
that can't be salvaged, which stays as it was.

Example: salvage --write gateway.state";

fn main() -> ExitCode {
    Program { name: "salvage", help: HELP, switches: Switches { valued: &[], flags: &["--write"] } }.run(salvage)
}

fn salvage(given: &Given) -> Result<u8, String> {
    let [file] = given.all_names(["FILE"])?;
    whole::is_plain(file)?;
    let octets = whole::read(file, file::LARGEST)?.ok_or_else(|| format!("{file}: isn't there"))?;
    let named = |what: String| format!("{file}: {what}");
    let before = TableFile::of(&octets).map_err(named)?;
    let (after, places) = before.salvaged().map_err(named)?;
    let write = given.has("--write") && !places.is_empty();
    if write {
        whole::replace(file, &after.octets())?;
    }
    say::out(&report::text(file, before.table(), &places, write));
    Ok(if write || places.is_empty() { 0 } else { FAILED })
}
