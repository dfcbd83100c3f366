//! Plays a text of commands, line by line, over one book.

use super::answer::{output, said, told, words};
use super::command::{command, Command};
use crate::codec::fields;
use crate::octets::text;
use crate::refused::refused;
use rds::ffi::{self, Lent, FIELDS, PART};

/// Tells each line and what it gives, up to the first that is no command: that one is the error.
pub fn play(text: &str, told: &mut String) -> Result<(), String> {
    let mut player = Player { book: vec![0; usize::try_from(ffi::ports_bytes()).unwrap_or_default()] };
    for (number, line) in (1..).zip(text.lines()) {
        let given = command(line).and_then(|command| player.run(command));
        let given = given.map_err(|wrong| format!("line {number}: {wrong}"))?;
        *told += &format!("{line}{given}\n");
    }
    Ok(())
}

struct Player {
    book: Vec<u8>,
}

impl Player {
    fn run(&mut self, command: Command) -> Result<String, String> {
        Ok(match command {
            Command::Nothing => String::new(),
            Command::Frame { from_network, octets } => frame(&octets, from_network),
            Command::Write { from_network, words, octets } => written(&fields(&words, FIELDS)?, &octets, from_network),
            Command::Put { sent, datagram } => told(output(|out, answer| ffi::put(&datagram, sent, out, answer))),
            Command::Fresh { network, formats } => self.alone(|book| ffi::ports_fresh(book, network, formats)),
            Command::Reserve { own, peers, with_format, application } => {
                self.over(|lent| ffi::reserve(lent, own, peers, with_format, &application))
            }
            Command::Release { own } => self.over(|lent| ffi::release(lent, own)),
            Command::Again => told(output(|out, answer| ffi::again(&self.book, out, answer))),
            Command::Abandon => self.alone(ffi::abandon),
            Command::Receive(frame) => self.over(|lent| ffi::receive(lent, &frame)),
            Command::Port { port } => told(output(|out, answer| ffi::port(&self.book, port, out, answer))),
        })
    }

    /// A call that is lent the book alone.
    fn alone(&mut self, call: impl FnOnce(&mut [u8]) -> u64) -> String {
        let before = self.book.clone();
        match call(&mut self.book) {
            0 => ": ok".to_string(),
            number => refused(number, before != self.book),
        }
    }

    fn over(&mut self, call: impl FnOnce(Lent) -> u64) -> String {
        let before = self.book.clone();
        let answer = output(|out, answer| call(Lent { book: &mut self.book, out, answer }));
        let changed = answer.is_err() && before != self.book;
        told(answer) + if changed { "; THE BOOK CHANGED" } else { "" }
    }
}

/// A frame, read; taken; and what was read, written.
fn frame(octets: &[u8], from_network: u64) -> String {
    let read = words(FIELDS, |fields| ffi::read(octets, from_network, fields));
    let taken = words(PART, |part| ffi::take(octets, from_network, part));
    let back = read.as_ref().map_or_else(|_| String::new(), |fields| written(fields, octets, from_network));
    let shown = |words: Result<Vec<u64>, String>| words.map_or_else(|refused| refused, |words| format!(": ok{}", said(&words)));
    format!("{}{}{back}", shown(read), shown(taken))
}

/// The frame that words say; its length is the only word of the answer.
fn written(fields: &[u64], octets: &[u8], from_network: u64) -> String {
    match output(|out, answer| ffi::write(fields, octets, from_network, out, answer)) {
        Err(refused) => refused,
        Ok((words, octets)) if words[1..].iter().all(|word| *word == 0) => format!(": ok {}", text(&octets)),
        Ok((words, _)) => format!(": ok; ODD WORDS{}", said(&words)),
    }
}

#[cfg(test)]
mod tests {
    use super::*;

    #[test]
    fn a_line_that_is_no_command_is_named() {
        for (line, wrong) in [
            ("x", "there is no command \"x\""),
            ("u 4", "OCTETS can't be \"4\""),
            ("w x /", "SIDE can't be \"x\""),
            ("w u 100=0 /", "there is no word 100"),
            ("p 0 0 0 /", "NUMBER can't be \"/\""),
            ("r 3 5 0", "/OCTETS is missing"),
            ("a 1", "\"1\" is too much"),
        ] {
            let mut told = String::new();
            assert_eq!(play(&format!("f 0 0\n{line}"), &mut told), Err(format!("line 2: {wrong}")), "{line}");
            assert_eq!(told, "f 0 0: ok\n", "what comes before it is told");
        }
    }
}
