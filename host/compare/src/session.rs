//! One session: a fresh table, then some hundred calls that follow on each other.

use crate::calls::{Call, Kind, Name, Sizes};
use crate::codec;
use crate::damage;
use crate::data;
use crate::datagrams;
use crate::engine::{self, Sent};
use crate::fresh;
use crate::pair::{End, Pair};
use crate::salvage;
use crate::sizes;
use crate::view::View;
use kit::layout;
use kit::Random;
use wtp::ffi::DUE;

/// How many in a hundred calls are lent wrong sizes.
const WRONG_SIZES: u64 = 2;
/// The word of an answer that says whether a record was fired.
const FIRED: usize = 3;

pub struct Session<'a> {
    random: &'a mut Random,
    pair: &'a mut Pair,
    call: &'a mut Call,
    records: usize,
    sent: Sent,
    saved: Vec<u8>,
}

/// Plays sessions until the calls are made or a difference is found.
pub fn play_all(random: &mut Random, pair: &mut Pair) -> End {
    let mut call = Call::default();
    loop {
        let records = match random.below(50) {
            0 => 48,
            1..=4 => 8,
            _ => 1 + random.place(4),
        };
        let mut session = Session { random, pair, call: &mut call, records, sent: Sent::default(), saved: Vec::new() };
        if let Err(end) = session.play() {
            return end;
        }
    }
}

impl Session<'_> {
    fn play(&mut self) -> Result<(), End> {
        self.pair.begin(self.records, self.random);
        self.fresh_table()?;
        for _ in 0..100 + self.random.below(400) {
            self.step()?;
        }
        Ok(())
    }

    fn step(&mut self) -> Result<(), End> {
        match self.random.below(1000) {
            0..=649 => self.engine_call().map(drop),
            650..=709 => self.engine_call_and_data(),
            710..=739 => self.with_damaged_table(),
            740..=759 => self.with_salvaged_table(),
            760..=869 => self.read_and_write(),
            870..=899 => self.codec_call(datagrams::draw_separate).map(drop),
            900..=929 => self.codec_call(datagrams::draw_read_part).map(drop),
            930..=989 => self.codec_call(datagrams::draw_join).map(drop),
            990..=994 => self.refused_fresh(),
            _ => self.table_bytes(),
        }
    }

    /// Makes the call that was drawn, with sizes that seldom are wrong.
    fn make(&mut self) -> Result<u64, End> {
        self.make_with_wrong_sizes(WRONG_SIZES)
    }

    /// Makes the call that was drawn; `chance` in a hundred is that its sizes are wrong.
    fn make_with_wrong_sizes(&mut self, chance: u64) -> Result<u64, End> {
        self.lend(chance);
        self.pair.play(self.call)
    }

    /// Says how much is lent, `chance` in a hundred of it wrong, and fills what a call may write.
    fn lend(&mut self, chance: u64) {
        self.call.sizes = sizes::right(self.random, self.call.kind, self.records);
        if self.random.percent(chance) {
            sizes::change(self.random, self.call.kind, &mut self.call.sizes);
        }
        self.pair.refill(self.random);
    }

    fn fresh_table(&mut self) -> Result<(), End> {
        loop {
            fresh::settings(self.random, &mut self.call.words);
            self.call.octets.clear();
            self.call.kind = Kind::Fresh { first_tid: fresh::first_tid(self.random) };
            if self.make()? == 0 && self.call.sizes.table == layout::table_bytes(self.records) {
                return Ok(());
            }
        }
    }

    /// A fresh-table call that is mostly refused for its settings, first TID or size; a table that it took is put back.
    fn refused_fresh(&mut self) -> Result<(), End> {
        self.save_table();
        fresh::settings(self.random, &mut self.call.words);
        let mut first_tid = fresh::first_tid(self.random);
        if self.random.percent(80) {
            fresh::spoil(self.random, &mut self.call.words, &mut first_tid);
        }
        self.call.octets.clear();
        self.call.kind = Kind::Fresh { first_tid };
        self.make_with_wrong_sizes(50)?;
        self.restore_table();
        Ok(())
    }

    fn table_bytes(&mut self) -> Result<(), End> {
        let records = if self.random.percent(80) { self.random.below(52) } else { self.random.word() };
        self.call.octets.clear();
        self.call.words.clear();
        self.call.kind = Kind::TableBytes { records };
        self.make().map(drop)
    }

    fn engine_call(&mut self) -> Result<u64, End> {
        let [library, _] = &self.pair.buffers;
        let view = View::new(&library.table, self.records);
        engine::draw(self.random, view, &self.sent, self.call);
        let number = match self.call.kind {
            Kind::Timer { now } => self.timer(now)?,
            _ => self.make()?,
        };
        if number == 0 {
            self.keep_sent();
        }
        Ok(number)
    }

    /// A call of the engine, and then the data of what it shows, or of what its answer says once it is changed.
    fn engine_call_and_data(&mut self) -> Result<(), End> {
        if self.engine_call()? != 0 {
            return Ok(());
        }
        let [library, _] = &self.pair.buffers;
        data::draw(self.random, &library.words, self.call);
        self.make().map(drop)
    }

    /// A timer call. Where it fired a record the same is done in two calls, on what was lent to it, and must leave the same.
    fn timer(&mut self, now: u64) -> Result<u64, End> {
        self.lend(WRONG_SIZES);
        self.pair.keep();
        let number = self.pair.play(self.call)?;
        if number == 0 && self.pair.buffers[0].words[FIRED] == 1 {
            self.pair.swap();
            self.deadline_and_fire(now)?;
        }
        Ok(number)
    }

    fn deadline_and_fire(&mut self, now: u64) -> Result<(), End> {
        let sizes = self.call.sizes;
        self.call.kind = Kind::Deadline;
        self.call.sizes = Sizes { words: DUE, ..sizes };
        self.pair.play(self.call)?;
        let told = &self.pair.buffers[0].words;
        self.call.kind = Kind::Fire { now, of: Name { role: told[2], peer: told[3], tid: told[4] } };
        self.call.sizes = sizes;
        let number = self.pair.play(self.call)?;
        self.pair.must_be_kept(self.call, number)
    }

    /// Keeps the PDU that was sent, if one was, to hand it in again later.
    fn keep_sent(&mut self) {
        let [library, _] = &self.pair.buffers;
        let length = library.words[0] as usize;
        if length == 0 || self.call.kind == Kind::Deadline {
            return;
        }
        self.sent.pdu.clear();
        self.sent.pdu.extend(library.out.iter().take(length));
        self.sent.peer = match self.call.kind {
            Kind::Request { peer, .. } | Kind::Receive { peer, .. } => peer,
            Kind::Answer { of, .. } | Kind::Result { of, .. } | Kind::Abort { of, .. } | Kind::Fire { of, .. } => of.peer,
            _ => library.words[29],
        };
    }

    /// Damages the table, goes on with it for a while if it is still well formed, and puts it back.
    fn with_damaged_table(&mut self) -> Result<(), End> {
        self.save_table();
        let [library, _] = &mut self.pair.buffers;
        for _ in 0..self.random.of(&[1, 1, 1, 2, 3]) {
            damage::damage(self.random, &mut library.table, self.records);
        }
        self.pair.make_equal();
        if self.engine_call()? != 1 {
            for _ in 0..self.random.below(12) {
                self.engine_call()?;
            }
        }
        self.restore_table();
        Ok(())
    }

    /// Damages the table and salvages it, once and again, goes on with it for a while, and puts it back.
    fn with_salvaged_table(&mut self) -> Result<(), End> {
        self.save_table();
        let [library, _] = &mut self.pair.buffers;
        salvage::damage(self.random, &mut library.table, self.records);
        self.pair.make_equal();
        if self.bare_call(Kind::Salvage, 20)? == 0 && self.call.sizes.table == layout::table_bytes(self.records) {
            self.salvaged_again()?;
            for _ in 0..self.random.below(12) {
                self.engine_call()?;
            }
        }
        self.restore_table();
        Ok(())
    }

    fn salvaged_again(&mut self) -> Result<(), End> {
        self.pair.keep();
        let number = self.pair.play(self.call)?;
        self.pair.must_be_salvaged(self.call, number)?;
        let number = self.bare_call(Kind::Deadline, 0)?;
        self.pair.must_be_accepted(self.call, number)
    }

    /// A call that is lent nothing to read; `chance` in a hundred is that its sizes are wrong.
    fn bare_call(&mut self, kind: Kind, chance: u64) -> Result<u64, End> {
        self.call.octets.clear();
        self.call.words.clear();
        self.call.kind = kind;
        self.make_with_wrong_sizes(chance)
    }

    fn save_table(&mut self) {
        self.saved.clone_from(&self.pair.buffers[0].table);
    }

    fn restore_table(&mut self) {
        for buffers in &mut self.pair.buffers {
            buffers.table.clone_from(&self.saved);
        }
    }

    fn codec_call(&mut self, draw: fn(&mut Random, &mut Call)) -> Result<u64, End> {
        draw(self.random, self.call);
        self.make()
    }

    /// Reads a PDU; what was read is then written, with changes or without.
    fn read_and_write(&mut self) -> Result<(), End> {
        if self.codec_call(codec::draw_read)? != 0 {
            return Ok(());
        }
        let [library, _] = &self.pair.buffers;
        codec::draw_write(self.random, &library.words, self.call);
        self.make().map(drop)
    }
}
