//! Plays a text of commands, line by line.

use crate::answer::Answer;
use crate::call::{library, Call, Engine, Event, Salvage};
use crate::changes::changes;
use crate::codec;
use crate::command::{command, Command};
use crate::desk::{Desk, UNTOUCHED_WORD};
use crate::look::look;
use crate::refused::refused;
use crate::salvaged::salvaged;
use kit::layout::HEADER;
use wtp::ffi;

/// Tells each line and what it gives, up to the first that is no command: that one is the error.
pub fn play(text: &str, told: &mut String) -> Result<(), String> {
    play_on(library, ffi::salvage, text, told)
}

pub fn play_on(engine: Engine, salvage: Salvage, text: &str, told: &mut String) -> Result<(), String> {
    let mut player = Player { desk: Desk::new(), engine, salvage };
    for (number, line) in (1..).zip(text.lines()) {
        let given = command(line).and_then(|command| player.run(command));
        let given = given.map_err(|wrong| format!("line {number}: {wrong}"))?;
        *told += &format!("{line}{given}\n");
    }
    Ok(())
}

/// The longest list that can be lent.
const MOST_WORDS: usize = 200;

struct Player {
    desk: Desk,
    engine: Engine,
    salvage: Salvage,
}

impl Player {
    fn run(&mut self, command: Command) -> Result<String, String> {
        match command {
            Command::Nothing => {}
            Command::Set(words) => self.desk.set(&words)?,
            Command::Lend(sizes) => self.desk.lent = sizes,
            Command::Bytes { records } => return Ok(format!(": {}", ffi::table_bytes(records))),
            Command::Fresh { end, records, first_tid } => return Ok(self.fresh(end, records, first_tid)),
            Command::Put { end, at, value } => return self.put(end, at, value),
            Command::Copy { end, place, to } => self.copy(end, place, to)?,
            Command::Fill { end, place, value } => self.desk.ends[end].record(place)?.fill(value),
            Command::Look { end } => return self.look(end),
            Command::Deadline { end } => return Ok(self.deadline(end)),
            Command::Salvage { end, words } => return Ok(self.salvage(end, words)),
            Command::Call(call) => return Ok(self.call(call)),
            Command::Codec(case) => return codec::LIBRARY.told(&case),
        }
        Ok(String::new())
    }

    fn fresh(&mut self, end: usize, records: u64, first_tid: u64) -> String {
        self.desk.ends[end].records = records;
        let sizes = self.desk.sizes(end);
        let buffers = &mut self.desk.ends[end].buffers;
        let before = buffers.clone();
        let number = ffi::fresh(&mut buffers.table[..sizes.table], &self.desk.settings[..sizes.settings], first_tid);
        if number == 0 {
            ": ok".to_string()
        } else {
            refused(number, before != *buffers)
        }
    }

    fn put(&mut self, end: usize, at: usize, value: u8) -> Result<String, String> {
        let octet = self.desk.ends[end].buffers.table.get_mut(at).ok_or_else(|| format!("there is no octet {at}"))?;
        let was = std::mem::replace(octet, value);
        Ok(format!(": was {was}"))
    }

    fn copy(&mut self, end: usize, place: usize, to: usize) -> Result<(), String> {
        let end = &mut self.desk.ends[end];
        let octets = end.record(place)?.to_vec();
        end.record(to)?.copy_from_slice(&octets);
        Ok(())
    }

    fn look(&self, end: usize) -> Result<String, String> {
        let end = &self.desk.ends[end];
        let bytes = usize::try_from(ffi::table_bytes(end.records)).unwrap_or_default();
        let table = end.buffers.table.get(..bytes).filter(|table| !table.is_empty());
        table.map(look).ok_or_else(|| format!("there is no table of {} records", end.records))
    }

    /// The earliest deadline; nothing else that is lent may change.
    fn deadline(&mut self, end: usize) -> String {
        let sizes = self.desk.sizes(end);
        let buffers = &mut self.desk.ends[end].buffers;
        buffers.clean();
        let before = buffers.clone();
        let number = (self.engine)(Event::Deadline, 0, &[], buffers.lend(sizes));
        if number != 0 {
            return refused(number, before != *buffers);
        }
        let told = Answer { buffers, octets: &[] }.deadline();
        let changed = before.table != buffers.table || before.store != buffers.store || before.out != buffers.out;
        format!(": ok{told}{}", if changed { "; MORE THAN THE WORDS CHANGED" } else { "" })
    }

    /// Salvages the table; of what is lent only its records and the list may change.
    fn salvage(&mut self, end: usize, words: usize) -> String {
        let sizes = self.desk.sizes(end);
        let table = &mut self.desk.ends[end].buffers.table;
        let before = table.clone();
        let mut list = vec![UNTOUCHED_WORD; words.min(MOST_WORDS)];
        let number = (self.salvage)(&mut table[..sizes.table], &mut list);
        let unlisted = list.iter().all(|word| *word == UNTOUCHED_WORD);
        if number != 0 {
            return refused(number, before != *table || !unlisted);
        }
        let changed = changes(&before[..sizes.table], &table[..sizes.table]);
        let more = before[..HEADER] != table[..HEADER] || before[sizes.table..] != table[sizes.table..];
        format!(": ok{changed}{}{}", salvaged(&list), if more { "; MORE THAN THE RECORDS CHANGED" } else { "" })
    }

    /// Makes the call on what is lent, and keeps the PDU that it sends.
    fn call(&mut self, call: Call) -> String {
        let octets = call.octets.unwrap_or_else(|| self.desk.ends[1 - call.end].last.clone());
        let sizes = self.desk.sizes(call.end);
        let end = &mut self.desk.ends[call.end];
        end.buffers.clean();
        let before = end.buffers.clone();
        let number = (self.engine)(call.event, call.now, &octets, end.buffers.lend(sizes));
        if number != 0 {
            return refused(number, before != end.buffers);
        }
        let answer = Answer { buffers: &end.buffers, octets: &octets };
        let changed = changes(&before.table[..sizes.table], &end.buffers.table[..sizes.table]);
        let told = format!(": ok{changed}{}", answer.told(call.event));
        if let Some(pdu) = answer.pdu().filter(|pdu| !pdu.is_empty()) {
            end.last = pdu.to_vec();
        }
        told
    }
}
