//! wtpdump: hex or a capture in, one line a PDU out.

#![deny(unsafe_code)]

use std::io::{self, BufWriter};
use std::process::ExitCode;

fn main() -> ExitCode {
    let mut out = BufWriter::new(io::stdout().lock());
    let arguments = std::env::args_os().skip(1);
    ExitCode::from(wtpdump::run(arguments, &mut io::stdin().lock(), &mut out, &mut io::stderr().lock()))
}
