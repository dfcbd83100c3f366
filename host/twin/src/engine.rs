//! One call of the engine: what was lent, judged; what it sends and shows; and its end.

use crate::answer::{Answer, Indication};
use crate::output::Output;
use crate::record::Name;
use crate::sending;
use crate::table::Table;
use crate::words::ANSWER;
use crate::{bounds, Lent, Row, Said};

pub struct Engine<'a> {
    pub table: Table<&'a mut [u8]>,
    pub now: u64,
    pub answer: Answer,
    store: &'a mut [u8],
    out: &'a mut [u8],
    words: &'a mut [u64],
}

impl<'a> Engine<'a> {
    /// Judges sizes, table and time; the rows are those of the call's refusals 1 and 2.
    pub fn open(lent: Lent<'a>, now: u64, size: Row, time: Row) -> Result<Engine<'a>, Said> {
        let Lent { table, store, out, answer } = lent;
        let wrong_size = Said { number: 1, row: size };
        if out.len() < bounds::SENDING {
            return Err(wrong_size);
        }
        let words = answer.get_mut(..ANSWER).ok_or(wrong_size)?;
        let table = Table::open(table).ok_or(wrong_size)?;
        if store.len() != bounds::CELL * table.records() {
            return Err(wrong_size);
        }
        if now < table.clock() || now > bounds::TIME {
            return Err(Said { number: 2, row: time });
        }
        Ok(Engine { table, now, answer: Answer::new(), store, out, words })
    }

    /// Ends an accepted call.
    pub fn accept(mut self, row: Row) -> Said {
        self.table.set_clock(self.now);
        self.words.copy_from_slice(self.answer.words());
        Said { number: 0, row }
    }

    pub fn show(&mut self, name: Name, indication: Indication) {
        self.answer.show(name, indication);
    }

    /// Keeps a message in the cell of a place.
    pub fn keep(&mut self, place: usize, message: &[u8]) {
        self.store[bounds::CELL * place..][..message.len()].copy_from_slice(message);
    }

    pub fn send(&mut self, octets: &[u8]) {
        self.send_with(octets, &[]);
    }

    /// Sends a header and what comes after it.
    pub fn send_with(&mut self, header: &[u8], rest: &[u8]) {
        let mut output = Output::new(self.out);
        output.put(header);
        output.put(rest);
        self.answer.sent(output.length());
    }

    /// Sends a header and the message in the cell of a place.
    pub fn send_kept(&mut self, header: &[u8], place: usize, length: u32) {
        let mut output = Output::new(self.out);
        output.put(header);
        output.put(&self.store[bounds::CELL * place..][..length as usize]);
        self.answer.sent(output.length());
    }

    /// Sends a plain Ack: an Error item where `unknown` is an identity, then so much of the exit information of the record at this place.
    pub fn send_plain_ack(&mut self, repeat: bool, name: Name, unknown: u8, place: usize, length: u8) {
        let mut output = Output::new(self.out);
        let con = |follows: bool| u8::from(follows) << 7;
        let [first, high, low] = sending::ack(false, repeat, name);
        output.put(&[con(unknown > 0 || length > 0) | first, high, low]);
        if unknown > 0 {
            output.put(&[con(length > 0) | sending::ERROR_ITEM, sending::UNKNOWN_ITEM << 4 | unknown]);
        }
        match length {
            0 => {}
            1..=3 => output.put(&[sending::INFO_ITEM | length]),
            _ => output.put(&[sending::INFO_ITEM | sending::LONG_FORM, length]),
        }
        output.put(self.table.exit(place, length));
        self.answer.sent(output.length());
    }
}
