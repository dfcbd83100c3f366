//! Talks to a WAP gateway as initiator: Connect, Get, Disconnect.

#![deny(unsafe_code)]

use interop::{browse, Wanted};
use kit::args::Switches;
use kit::program::{Program, FAILED};
use kit::say;
use std::process::ExitCode;

const HELP: &str = "\
browse: a conversation with a WAP gateway over the engine, as initiator

usage: browse GATEWAY BASE TEXT
  GATEWAY   address and port of the gateway's WSP over WTP, as 127.0.0.1:9201
  BASE      URL whose /text has the text TEXT, and /slow the same after ten seconds, as http://127.0.0.1:8080
  TEXT      what the pages hold

Prints every PDU with the seconds since the beginning, > sent and < received, and each case that is checked.
The last line counts them. Exit status: 0 all passed; 1 one failed; 2 wrong arguments.

example: browse 127.0.0.1:9201 http://127.0.0.1:8080 '12.5 ug/m3'";

fn main() -> ExitCode {
    Program { name: "browse", help: HELP, switches: Switches::default() }.run(|given| {
        let [gateway, base, text] = given.all_names(["GATEWAY", "BASE", "TEXT"])?;
        let (told, status) = match browse(&Wanted { gateway, base, text }) {
            Ok(count) => (format!("{} passed, {} failed", count.passed, count.failed), u8::from(count.failed > 0)),
            Err(why) => (format!("FAILED: {why}\n0 passed, 1 failed"), FAILED),
        };
        say::out(&told);
        Ok(status)
    })
}
