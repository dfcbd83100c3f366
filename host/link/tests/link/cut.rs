//! A reader and a gateway that are cut off again and again and go on from their state files, and files that can't be used.

use crate::world::{sampler, table, value, World, MANNER, NO_FAULTS};
use kit::layout;
use link::book::{Book, Entry};
use link::desk::Desk;
use link::keeper::{Keeper, Resumed};
use link::line::Faults;
use link::notes::Notes;
use link::outcome::{Kind, Outcome};
use link::payload::Sampler;
use link::round::Round;
use link::state::Whose;
use link::step::{End, Packet};
use std::fs;

/// A file in a directory of its own, which is removed at the end.
struct Place {
    directory: std::path::PathBuf,
    file: String,
}

impl Place {
    fn new(name: &str) -> Place {
        let directory = std::env::temp_dir().join(format!("cut-{name}-{}", std::process::id()));
        fs::create_dir(&directory).unwrap();
        let file = directory.join("state").to_str().unwrap().to_string();
        Place { directory, file }
    }

    /// Keeps the end as its program does.
    fn keep(&self, end: &impl End, whose: Whose) {
        let mut notes = Notes::default();
        notes.add("own", "127.0.0.1:9201");
        notes.add("peer", "127.0.0.1:9202");
        notes.append(end.notes());
        let (mut keeper, _) = Keeper::open(&self.file, whose).unwrap();
        assert_eq!(keeper.keep(end.table(), &notes), None);
    }

    fn resumed(&self, whose: Whose) -> Resumed {
        Keeper::open(&self.file, whose).unwrap().1.unwrap()
    }

    /// The message with which the file is refused; it stays as it was.
    fn refused(&self, whose: Whose) -> String {
        let before = fs::read(&self.file).ok();
        let message = Keeper::open(&self.file, whose).err().unwrap();
        assert_eq!(fs::read(&self.file).ok(), before);
        message.strip_prefix(&format!("{}: ", self.file)).unwrap().to_string()
    }

    fn change(&self, change: impl FnOnce(&mut Vec<u8>)) {
        let mut octets = fs::read(&self.file).unwrap();
        change(&mut octets);
        fs::write(&self.file, octets).unwrap();
    }
}

impl Drop for Place {
    fn drop(&mut self) {
        let _ = fs::remove_dir_all(&self.directory);
    }
}

fn book(entries: &[Entry]) -> Book {
    let mut book = Book::default();
    entries.iter().enumerate().for_each(|(number, entry)| assert!(book.enter(sampler(number), entry.clone())));
    book
}

fn samplers(count: usize) -> Vec<Sampler> {
    (0..count).map(sampler).collect()
}

/// Where the table begins in a state file.
const TABLE: usize = 16;

#[test]
fn whatever_is_cut_off_goes_on_with_its_transactions() {
    let entries = [value(0), Entry::Empty, value(2), Entry::Damaged, value(4), value(5), Entry::Silent, value(7), value(8)];
    let (reader, gateway) = (Place::new("reader"), Place::new("gateway"));
    let faults = Faults { loss: 20, duplicate: 20, delay: 400 };
    let mut world = World::new(&entries, 3, MANNER, faults, faults);
    let (mut wakes, mut asked) = (0, 0);
    while !world.round.is_finished() {
        world.wake();
        wakes += 1;
        if wakes % 3 == 0 {
            reader.keep(&world.round, Whose::Reader);
            let resumed = Round::resumed(&reader.resumed(Whose::Reader), samplers(entries.len()), MANNER).unwrap();
            assert_eq!(resumed.costs(), world.round.costs());
            world.round = resumed;
        }
        if wakes % 2 == 0 {
            asked += world.desk.tally().asked;
            gateway.keep(&world.desk, Whose::Gateway);
            world.desk = Desk::resumed(&gateway.resumed(Whose::Gateway), book(&entries)).unwrap();
        }
    }
    assert!(wakes > 30, "{wakes}");
    let kinds: Vec<_> = world.run().iter().map(Outcome::kind).collect();
    use Kind::{Abort, EmptyResult, Value};
    assert_eq!(kinds, [Value, EmptyResult, Value, Abort, Value, Value, Abort, Value, Value]);
    assert_eq!(asked + world.desk.tally().asked, 9, "each Invoke is shown once, whoever was cut off");
    assert_eq!(world.round.costs().iter().sum::<u32>(), world.sent, "a request that goes on has its cost in its record");
}

#[test]
fn a_round_that_was_told_leaves_its_table_for_the_next() {
    let place = Place::new("told");
    let mut world = World::new(&[value(0)], 1, MANNER, NO_FAULTS, NO_FAULTS);
    world.run();
    place.keep(&world.round, Whose::Reader);
    let resumed = place.resumed(Whose::Reader);
    let other = Round::resumed(&resumed, samplers(2), MANNER).err().unwrap();
    assert!(other.ends_with("state: is of a round that isn't over, with other samplers"), "{other}");
    let same = Round::resumed(&resumed, samplers(1), MANNER).unwrap();
    assert_eq!((same.outcomes(), same.costs()), (world.round.outcomes(), world.round.costs()));
    assert_eq!(same.costs(), [20]);
    world.round.told();
    place.keep(&world.round, Whose::Reader);
    let mut next = Round::resumed(&place.resumed(Whose::Reader), samplers(2), MANNER).unwrap();
    assert_eq!(next.finished(), 0);
    let step = next.tick(world.now);
    // The first request had 32,760; TIDnew isn't due again.
    assert_eq!(step.send[0].octets[..4], [0x0E, 0x7F, 0xF9, 0x12]);
}

#[test]
fn a_sampler_whose_record_was_damaged_is_asked_for_again() {
    let place = Place::new("damaged");
    let mut round = Round::new(table(3), samplers(2), MANNER);
    assert_eq!(round.tick(10).send.len(), 2);
    place.keep(&round, Whose::Reader);
    place.change(|octets| {
        octets[TABLE + layout::table_bytes(0)..][..layout::RECORD].fill(0xFF);
        octets[TABLE + layout::table_bytes(2) + 1] = 1;
    });
    let resumed = place.resumed(Whose::Reader);
    let file = &place.file;
    let lines = [
        format!("goes on from {file}: live transactions 1, peers 1"),
        format!("{file}: place 0 was freed: a field was out of range (reason 1)"),
        format!("{file}: place 2 was freed: it was free and not zero (reason 2)"),
    ];
    assert_eq!(resumed.lines(), lines);
    assert_eq!(resumed.clock(), 10);
    let mut round = Round::resumed(&resumed, samplers(2), MANNER).unwrap();
    let again = round.tick(10).send;
    assert_eq!(again, [Packet { peer: 0, octets: b"\x0E\x7F\xFA\x12sampler 00000".to_vec() }]);
    assert_eq!(round.waiting(), 2);
    round.interrupt(20);
    assert_eq!(round.costs(), [17, 17], "what was sent under the record that was damaged is lost with it");
}

#[test]
fn a_transaction_whose_record_was_damaged_is_forgotten() {
    let place = Place::new("forgotten");
    let mut desk = Desk::new(table(2), book(&[Entry::Silent]));
    desk.datagram(10, 0, b"\x0E\x00\x05\x02sampler 00000");
    desk.datagram(10, 0, b"\x1C\x00\x05");
    assert_eq!(desk.notes().octets(), b"open 0 5 unanswered\n");
    place.keep(&desk, Whose::Gateway);
    place.change(|octets| octets[TABLE + layout::table_bytes(0)] = 12);
    let mut desk = Desk::resumed(&place.resumed(Whose::Gateway), book(&[Entry::Silent])).unwrap();
    assert!(desk.notes() == Notes::default() && desk.interrupt(10).log.is_empty());
}

#[test]
fn a_file_that_cannot_be_used_is_named_and_stays() {
    let place = Place::new("refused");
    assert!(Keeper::open(&place.file, Whose::Reader).unwrap().1.is_none(), "there is none yet");
    let round = Round::new(table(1), samplers(1), MANNER);
    place.keep(&round, Whose::Reader);
    assert_eq!(place.refused(Whose::Gateway), "is the state of a reader, not of a gateway");
    let whole = fs::read(&place.file).unwrap();
    let refused = |change: fn(&mut Vec<u8>)| {
        fs::write(&place.file, &whole).unwrap();
        place.change(change);
        place.refused(Whose::Reader)
    };
    assert!(refused(|octets| octets.truncate(700)).starts_with("is cut short: it has 700 octets"));
    assert_eq!(refused(|octets| octets[8] = 2), "is a state file of version 2; this program reads version 1");
    assert_eq!(refused(|octets| octets[0] = 0), "isn't a state file");
    let header = "its table can't be salvaged: a field of the table outside its records is out of range (number 15)";
    assert_eq!(refused(|octets| octets[TABLE + 10] = 9), header);
    assert_eq!(refused(|octets| octets[TABLE + 800 + 1_024] = b'x'), "line 1 of its notes can't be read");
    assert_eq!(refused(|octets| *octets.last_mut().unwrap() = 0xFF), "its notes aren't UTF-8 text");
    let directory = place.directory.to_str().unwrap();
    assert_eq!(Keeper::open(directory, Whose::Reader).err().unwrap(), format!("{directory}: isn't the name of a plain file"));
}

#[test]
fn a_file_that_cannot_be_written_is_said_once_and_so_is_that_it_can_again() {
    let place = Place::new("failing");
    let (mut keeper, _) = Keeper::open(&place.file, Whose::Reader).unwrap();
    let notes = Notes::default();
    let aside = format!("{}-aside", place.directory.display());
    fs::rename(&place.directory, &aside).unwrap();
    assert!(keeper.keep(&table(1), &notes).unwrap().starts_with(&format!("{}: can't be written: ", place.file)));
    assert_eq!(keeper.keep(&table(1), &notes), None);
    fs::rename(&aside, &place.directory).unwrap();
    assert_eq!(keeper.keep(&table(1), &notes), Some(format!("{}: is written again", place.file)));
    assert_eq!(keeper.keep(&table(1), &notes), None);
}
