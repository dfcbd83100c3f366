//! The gateway's open transactions, as its user knows them: which aren't answered, and which are and how.

use crate::notes::{unreadable, Notes};
use wtp::{Name, Role};

/// What a note of such a transaction begins with.
pub const OPEN: &str = "open";
const STAGES: [(Stage, &str); 2] = [(Stage::Unanswered, "unanswered"), (Stage::Answered { damaged: true }, "damaged")];

#[derive(Debug, Clone, Copy, PartialEq, Eq)]
pub enum Stage {
    Unanswered,
    Answered { damaged: bool },
}

#[derive(Debug, Default)]
pub struct OpenList(Vec<(Name, Stage)>);

impl OpenList {
    /// The transaction is at this stage from now on.
    pub fn set(&mut self, of: Name, stage: Stage) {
        self.end(of);
        self.0.push((of, stage));
    }

    pub fn end(&mut self, of: Name) {
        self.0.retain(|open| open.0 != of);
    }

    pub fn stage(&self, of: Name) -> Option<Stage> {
        self.0.iter().find(|open| open.0 == of).map(|open| open.1)
    }

    /// Leaves out those that aren't so.
    pub fn retain(&mut self, keep: impl Fn(Name) -> bool) {
        self.0.retain(|open| keep(open.0));
    }

    /// A line for each that something is still to be done for: peer, TID and what. One that was answered as it should be is the
    /// engine's alone.
    pub fn notes(&self) -> Notes {
        let mut notes = Notes::default();
        for (of, stage) in &self.0 {
            if let Some(word) = word(*stage) {
                notes.add(OPEN, format!("{} {} {word}", of.peer, of.tid));
            }
        }
        notes
    }

    /// The list that was noted.
    pub fn of(notes: &Notes) -> Result<OpenList, String> {
        let each = notes.each(OPEN).map(|rest| entry(rest).ok_or_else(|| unreadable(OPEN, rest)));
        each.collect::<Result<_, _>>().map(OpenList)
    }

    /// Takes out those that aren't answered.
    pub fn take_unanswered(&mut self) -> Vec<Name> {
        let (unanswered, rest): (Vec<_>, Vec<_>) = self.0.iter().partition(|open| open.1 == Stage::Unanswered);
        self.0 = rest;
        unanswered.into_iter().map(|open| open.0).collect()
    }
}

fn word(stage: Stage) -> Option<&'static str> {
    STAGES.iter().find(|row| row.0 == stage).map(|row| row.1)
}

fn entry(rest: &str) -> Option<(Name, Stage)> {
    match rest.split(' ').collect::<Vec<_>>()[..] {
        [peer, tid, word] => {
            let of = Name { role: Role::Responder, peer: peer.parse().ok()?, tid: tid.parse().ok()? };
            STAGES.iter().find(|row| row.1 == word).map(|row| (of, row.0))
        }
        _ => None,
    }
}

#[cfg(test)]
mod tests {
    use super::*;

    #[test]
    fn only_what_is_not_answered_is_taken_out() {
        let of = |tid| Name { role: Role::Responder, peer: 0, tid };
        let answered = Stage::Answered { damaged: false };
        let mut list = OpenList::default();
        (1..=3).for_each(|tid| list.set(of(tid), Stage::Unanswered));
        list.set(of(2), answered);
        list.end(of(3));
        assert_eq!((list.stage(of(1)), list.stage(of(2)), list.stage(of(3))), (Some(Stage::Unanswered), Some(answered), None));
        assert_eq!(list.take_unanswered(), [of(1)]);
        assert_eq!((list.stage(of(1)), list.stage(of(2))), (None, Some(answered)));
    }

    #[test]
    fn what_is_noted_is_what_is_still_to_be_done() {
        let of = |tid| Name { role: Role::Responder, peer: 9, tid };
        let mut list = OpenList::default();
        list.set(of(1), Stage::Unanswered);
        list.set(of(2), Stage::Answered { damaged: false });
        list.set(of(3), Stage::Answered { damaged: true });
        assert_eq!(list.notes().octets(), b"open 9 1 unanswered\nopen 9 3 damaged\n");
        let read = OpenList::of(&list.notes()).unwrap();
        assert_eq!((read.stage(of(1)), read.stage(of(2)), read.stage(of(3))), (list.stage(of(1)), None, list.stage(of(3))));
        for wrong in ["open", "open 9 1", "open 9 1 answered", "open 9 65536 damaged", "open 9 1 damaged x"] {
            let notes = Notes::of(wrong.as_bytes(), &["open"]).unwrap();
            assert!(OpenList::of(&notes).is_err(), "{wrong}");
        }
    }
}
