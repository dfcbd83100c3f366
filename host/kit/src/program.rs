//! A program from its arguments to its exit status.

use crate::args::{Given, Switches};
use crate::say;
use std::process::ExitCode;

/// Done, but not with what was hoped for.
pub const FAILED: u8 = 1;
/// The arguments, or what they name, can't be used.
pub const WRONG_ARGUMENTS: u8 = 2;

pub struct Program<'a> {
    pub name: &'a str,
    pub help: &'a str,
    pub switches: Switches<'a>,
}

impl Program<'_> {
    /// Reads the arguments and has the work done, whose status it ends with; gives help instead, or says what is wrong.
    pub fn run(&self, work: impl FnOnce(&Given) -> Result<u8, String>) -> ExitCode {
        let given = Given::of(std::env::args_os().skip(1), &self.switches);
        let status = given.and_then(|given| if given.has("--help") { Ok(self.say_help()) } else { work(&given) });
        ExitCode::from(status.unwrap_or_else(|what| {
            say::err(&say::refusal(self.name, &what));
            WRONG_ARGUMENTS
        }))
    }

    fn say_help(&self) -> u8 {
        say::out(self.help);
        0
    }
}
