//! Sessions over a book: all short frames first, then random calls and frames, damaged books among them.

use super::books::{self, BOOK};
use super::call::{Call, Kind, Sizes};
use super::pair::Pair;
use super::{fields, frames, manage};
use kit::Random;
use rds::ffi::{ANSWER, FIELDS, OUTPUT, PART, SENDING};

/// Calls from one fresh book.
const SESSION: u64 = 150;
/// In so many of a hundred calls the sizes are wrong.
const WRONG_SIZES: u64 = 2;

/// All frames of up to two octets, and then so many calls. The error is a difference in words.
pub fn play_all(random: &mut Random, pair: &mut Pair, calls: u64) -> Result<(), String> {
    let sizes = Sizes { book: BOOK, out: OUTPUT, words: FIELDS };
    let call = Call { kind: Kind::Bytes, octets: Vec::new(), fields: Vec::new(), sizes };
    let mut session = Session { random, pair, call };
    session.make(Kind::Bytes)?;
    session.short_frames()?;
    let end = session.pair.tally.calls + calls;
    while session.pair.tally.calls < end {
        session.begin()?;
        for _ in 0..SESSION {
            session.step()?;
        }
    }
    Ok(())
}

struct Session<'a> {
    random: &'a mut Random,
    pair: &'a mut Pair,
    call: Call,
}

impl Session<'_> {
    /// Makes this call; seldom with sizes that aren't right.
    fn make(&mut self, kind: Kind) -> Result<u64, String> {
        self.lend(kind);
        if self.random.percent(WRONG_SIZES) {
            self.wrong_sizes();
        }
        self.pair.play(self.random, &self.call)
    }

    fn make_with_right_sizes(&mut self, kind: Kind) -> Result<u64, String> {
        self.lend(kind);
        self.pair.play(self.random, &self.call)
    }

    fn lend(&mut self, kind: Kind) {
        self.call.kind = kind;
        let words = match kind {
            Kind::Read { .. } => FIELDS,
            Kind::Take { .. } => PART,
            _ => ANSWER,
        };
        let out = if matches!(kind, Kind::Write { .. } | Kind::Put { .. }) { OUTPUT } else { SENDING };
        self.call.sizes = Sizes { book: BOOK, out, words };
    }

    fn wrong_sizes(&mut self) {
        let sizes = &mut self.call.sizes;
        let changed = self.random.of(&[0, 1, 2]);
        let size = [&mut sizes.book, &mut sizes.out, &mut sizes.words].into_iter().nth(changed);
        size.into_iter().for_each(|size| *size = self.random.of(&[0, 1, *size - 1, *size + 1]));
    }

    /// Every frame of up to two octets, read and taken as one of either side, and received by two books.
    fn short_frames(&mut self) -> Result<(), String> {
        let one = (0..=255).map(|first| vec![first]);
        let two = (0..=65_535_u16).map(|both| both.to_be_bytes().to_vec());
        let books = [self.busy_book(0)?, self.busy_book(1)?];
        for octets in std::iter::once(vec![]).chain(one).chain(two) {
            self.call.octets = octets;
            for (side, book) in books.iter().enumerate() {
                self.make_with_right_sizes(Kind::Read { from_network: side as u64 })?;
                self.make_with_right_sizes(Kind::Take { from_network: side as u64 })?;
                self.pair.set_book(book);
                self.make_with_right_sizes(Kind::Receive)?;
            }
        }
        Ok(())
    }

    /// A book with an outstanding Reserve.
    fn busy_book(&mut self, network: u64) -> Result<Vec<u8>, String> {
        self.make_with_right_sizes(Kind::Fresh { network, formats: 7 })?;
        self.call.octets = manage::application(self.random);
        self.make_with_right_sizes(Kind::Reserve { own: 3, peers: 5, with_format: 1 })?;
        Ok(self.pair.book().to_vec())
    }

    fn begin(&mut self) -> Result<(), String> {
        let (network, formats) = (self.random.of(&[0, 0, 1, 1, u64::MAX]), self.random.below(8));
        self.make_with_right_sizes(Kind::Fresh { network, formats }).map(drop)
    }

    fn step(&mut self) -> Result<(), String> {
        match self.random.below(100) {
            0..=19 => self.ask(),
            20..=54 => self.receive().map(drop),
            55..=74 => self.read_and_write(),
            75..=79 => self.frame_of_either(|from_network| Kind::Take { from_network }).map(drop),
            80..=87 => self.put(),
            88..=91 => self.make_port(),
            92..=97 => self.with_damaged_book(),
            _ => self.refused_fresh(),
        }
    }

    fn ask(&mut self) -> Result<(), String> {
        let own = self.numbered();
        let kind = match self.random.below(10) {
            0..=3 => Kind::Reserve { own, peers: self.numbered(), with_format: self.random.of(&[0, 0, 1, 2]) },
            4..=6 => Kind::Release { own: self.kept_port().filter(|_| self.random.percent(80)).unwrap_or(own) },
            7 | 8 => Kind::Again,
            _ => Kind::Abandon,
        };
        self.call.octets = manage::application(self.random);
        if self.random.percent(5) {
            let length = self.random.of(&[0, 16, 17, 19, 273, 300]);
            self.call.octets.resize(length, 3);
        }
        self.make(kind).map(drop)
    }

    /// A port, seldom a number that is none.
    fn numbered(&mut self) -> u64 {
        if self.random.percent(94) {
            manage::port(self.random).into()
        } else {
            self.random.of(&[16, 17, 256, 1 << 32, u64::MAX])
        }
    }

    fn kept_port(&mut self) -> Option<u64> {
        books::any_kept(self.random, self.pair.book()).map(|kept| kept.own.into())
    }

    fn receive(&mut self) -> Result<u64, String> {
        let from_network = !books::is_network(self.pair.book());
        frames::draw(self.random, self.pair.book(), from_network, &mut self.call.octets);
        self.make(Kind::Receive)
    }

    /// A frame of a side, in a call that is told one; seldom the other.
    fn frame_of_either(&mut self, kind: fn(u64) -> Kind) -> Result<u64, String> {
        let from_network = self.random.percent(50);
        frames::draw(self.random, self.pair.book(), from_network, &mut self.call.octets);
        let told = from_network != self.random.percent(5);
        let on = self.random.of(&[1, 1, 2, u64::MAX]);
        self.make(kind(if told { on } else { 0 }))
    }

    /// Reads a frame; what was read is then written, with changes or without.
    fn read_and_write(&mut self) -> Result<(), String> {
        if self.frame_of_either(|from_network| Kind::Read { from_network })? != 0 {
            return Ok(());
        }
        let from_network = match self.call.kind {
            Kind::Read { from_network } => from_network,
            _ => 0,
        };
        self.call.fields = self.pair.buffers[0].words[..FIELDS].to_vec();
        fields::change(self.random, &mut self.call.fields, &mut self.call.octets);
        let from_network = if self.random.percent(95) { from_network } else { self.random.below(2) };
        self.make(Kind::Write { from_network })?;
        self.call.fields.clear();
        Ok(())
    }

    fn put(&mut self) -> Result<(), String> {
        let ports = self.random.of(&[0, 1, 2]);
        let (source, destination) =
            if ports == 0 && self.random.percent(90) { (0, 0) } else { (self.numbered(), self.numbered()) };
        let number = if self.random.percent(95) { self.random.below(8) } else { self.random.of(&[8, 255, u64::MAX]) };
        let count = self.random.of(&[0, 1, 4, 100, 1_499, 1_500, 1_501, 1_600]);
        self.call.octets = self.random.octets(count);
        self.make(Kind::Put { ports, source, destination, number }).map(drop)
    }

    fn make_port(&mut self) -> Result<(), String> {
        let port = self.numbered();
        self.make(Kind::Port { port }).map(drop)
    }

    /// Damages the book, goes on with it for a while if it is still well formed, and puts it back.
    fn with_damaged_book(&mut self) -> Result<(), String> {
        let kept = self.pair.book().to_vec();
        let mut damaged = kept.clone();
        (0..self.random.of(&[1, 1, 2])).for_each(|_| books::damage(self.random, &mut damaged));
        self.pair.set_book(&damaged);
        for _ in 0..1 + self.random.below(4) {
            self.ask()?;
            self.receive()?;
            self.make_port()?;
        }
        self.pair.set_book(&kept);
        Ok(())
    }

    fn refused_fresh(&mut self) -> Result<(), String> {
        let kept = self.pair.book().to_vec();
        let formats = self.random.of(&[7, 8, 255, u64::MAX]);
        self.make(Kind::Fresh { network: 0, formats })?;
        self.pair.set_book(&kept);
        Ok(())
    }
}
