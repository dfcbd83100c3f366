//! A gateway's desk: it answers each Invoke from the laboratory's book.

use crate::book::{Book, Entry};
use crate::head::{self, Head};
use crate::keeper::{live, Resumed};
use crate::notes::Notes;
use crate::open::{OpenList, Stage};
use crate::payload::{escaped, Sampler};
use crate::reason;
use crate::step::{due, End, Packet, Step};
use crate::tally::Tally;
use wtp::{Name, Shown, Table};

const CON: u8 = 0x80;

pub struct Desk {
    table: Table,
    book: Book,
    open: OpenList,
    tally: Tally,
}

impl End for Desk {
    fn tick(&mut self, now: u64) -> Step {
        let mut step = Step::default();
        for (shown, _) in step.fire(&mut self.table, now) {
            self.shown(now, shown, &mut step);
        }
        self.damage(&mut step);
        step
    }

    fn hear(&mut self, now: u64, packet: &Packet) -> Step {
        self.datagram(now, packet.peer, &packet.octets)
    }

    fn table(&self) -> &Table {
        &self.table
    }

    fn notes(&self) -> Notes {
        self.open.notes()
    }

    fn next(&self) -> Option<u64> {
        due(&self.table)
    }
}

impl Desk {
    /// The table's waiting limit ends what nobody goes on with: a TID that isn't verified, a user who never answers.
    pub fn new(table: Table, book: Book) -> Desk {
        Desk { table, book, open: OpenList::default(), tally: Tally::default() }
    }

    /// Goes on from what was kept; transactions that were noted and aren't live any more are left out.
    pub fn resumed(resumed: &Resumed, book: Book) -> Result<Desk, String> {
        let mut open = OpenList::of(&resumed.notes).map_err(|what| resumed.wrong(&what))?;
        let live = live(&resumed.table);
        open.retain(|of| live.contains(&of));
        Ok(Desk { open, ..Desk::new(resumed.table.clone(), book) })
    }

    pub fn datagram(&mut self, now: u64, peer: u16, datagram: &[u8]) -> Step {
        let mut step = Step::default();
        for pdu in step.separated(peer, datagram) {
            if self.is_unheard(pdu) {
                self.tally.unheard += 1;
                step.say(format!("peer {peer}: an Invoke was thrown away, as the book says"));
                continue;
            }
            let taken = self.table.receive(now, peer, pdu);
            let sent = taken.as_ref().ok().and_then(|taken| Head::sent(peer, taken.sent.as_deref()?));
            // The user isn't shown that a verification begins.
            self.tally.verifications += u64::from(sent.map_or(false, |head| head.is_first_tidve()));
            for shown in step.take(peer, taken) {
                self.shown(now, shown, &mut step);
            }
        }
        self.damage(&mut step);
        step
    }

    /// Aborts what its user hasn't answered, so that no reader is left waiting.
    pub fn interrupt(&mut self, now: u64) -> Step {
        let mut step = Step::default();
        for of in self.open.take_unanswered() {
            self.abort(now, of, reason::STOPPED, &mut step);
            step.say(format!("{}: aborted: {}", line_start(of), reason::words(reason::STOPPED)));
        }
        step
    }

    pub fn tally(&self) -> &Tally {
        &self.tally
    }

    fn shown(&mut self, now: u64, shown: Shown, step: &mut Step) {
        let of = shown.of();
        let what = match shown {
            Shown::Invoke { class, data, .. } => self.asked(now, of, class, &data, step),
            Shown::Confirmation { .. } => {
                self.tally.confirmed += 1;
                self.open.end(of);
                "the result was confirmed".into()
            }
            Shown::Abort { by, .. } => {
                self.tally.aborted += 1;
                self.open.end(of);
                format!("aborted {}", reason::of_abort(by))
            }
            Shown::Result { .. } | Shown::EmptyResult { .. } => "a result, which was not asked for".into(),
        };
        step.say(format!("{}: {what}", line_start(of)));
    }

    /// Answers an Invoke as the book says; the line for the log is given back.
    fn asked(&mut self, now: u64, of: Name, class: u8, data: &[u8], step: &mut Step) -> String {
        self.tally.asked += 1;
        let sampler = Sampler::asked_for(data).filter(|_| class == 2);
        match sampler {
            Some(sampler) => {
                let entry = self.book.entry(&sampler).cloned().unwrap_or(Entry::Abort(reason::NOT_KNOWN));
                format!("sampler {sampler}: {}", self.reply(now, of, entry, step))
            }
            None if class == 0 => format!("an Invoke of class 0, which can't be answered: {}", escaped(data)),
            None => {
                let reply = self.reply(now, of, Entry::Abort(reason::NOT_A_REQUEST), step);
                format!("an Invoke of class {class}: {}: {reply}", escaped(data))
            }
        }
    }

    fn reply(&mut self, now: u64, of: Name, entry: Entry, step: &mut Step) -> String {
        match entry {
            Entry::Value(value) => {
                self.tally.values += 1;
                self.result(now, of, value.octets(), false, step);
                format!("answered {value}")
            }
            Entry::Empty => {
                self.tally.empty_results += 1;
                self.result(now, of, &[], false, step);
                "answered with an empty result".into()
            }
            Entry::Damaged => {
                self.tally.unanswered += 1;
                self.result(now, of, &[], true, step);
                "answered with a Result that goes out malformed, as the book says".into()
            }
            Entry::Silent | Entry::Unheard => {
                self.tally.unanswered += 1;
                self.open.set(of, Stage::Unanswered);
                "not answered, as the book says".into()
            }
            Entry::Abort(octet) => {
                self.tally.aborts += 1;
                self.abort(now, of, octet, step);
                format!("aborted: {}", reason::words(octet))
            }
        }
    }

    fn result(&mut self, now: u64, of: Name, data: &[u8], damaged: bool, step: &mut Step) {
        let taken = self.table.result(now, of, data);
        step.take(of.peer, taken);
        self.open.set(of, Stage::Answered { damaged });
    }

    fn abort(&mut self, now: u64, of: Name, octet: u8, step: &mut Step) {
        let taken = self.table.abort(now, of, octet);
        step.take(of.peer, taken);
        self.open.end(of);
    }

    /// Whether this is the Invoke for a sampler that the book calls unheard.
    fn is_unheard(&self, pdu: &[u8]) -> bool {
        let sampler = head::invoke_data(pdu).and_then(Sampler::asked_for);
        sampler.and_then(|sampler| self.book.entry(&sampler)) == Some(&Entry::Unheard)
    }

    /// Sets CON in each Result that is to go out damaged: it has no item, so that it is cut short.
    fn damage(&self, step: &mut Step) {
        for packet in &mut step.send {
            let result = Head::sent(packet.peer, &packet.octets).filter(|head| head.pdu_type == head::RESULT);
            if result.and_then(|head| self.open.stage(head.of)) == Some(Stage::Answered { damaged: true }) {
                packet.octets.iter_mut().take(1).for_each(|octet| *octet |= CON);
            }
        }
    }
}

fn line_start(of: Name) -> String {
    format!("peer {}, TID {}", of.peer, of.tid)
}
