//! A reader's round: a class 2 request for each sampler, several at a time, until each has its outcome.

use crate::keeper::{live, Resumed};
use crate::notes::Notes;
use crate::outcome::{Aborted, Cause, Outcome, Why};
use crate::payload::Sampler;
use crate::reason;
use crate::standing::{Noted, Standing, SAMPLER};
use crate::step::{cost, due, earliest, End, Packet, Step};
use std::collections::VecDeque;
use wtp::{Name, Refused, Role, Shown, Table};

/// The number that a reader has for its gateway.
pub const GATEWAY: u16 = 0;

/// How a round is carried out; times are in milliseconds.
#[derive(Debug, Clone, Copy)]
pub struct Manner {
    /// Ask for the user's acknowledgement: then no hold-on comes for a user who says nothing.
    pub user_ack: bool,
    /// How long a sampler may take from its request on.
    pub patience: u64,
    /// How long repeats of a result are still answered: the setting W.
    pub linger: u64,
}

/// A live request.
struct Asked {
    tid: u16,
    place: usize,
    since: u64,
}

pub struct Round {
    table: Table,
    manner: Manner,
    samplers: Vec<Sampler>,
    outcomes: Vec<Option<Outcome>>,
    /// What the request cost that brought each outcome; 0 where there was none.
    costs: Vec<u32>,
    /// The samplers that are still to be asked for.
    to_ask: VecDeque<usize>,
    asked: Vec<Asked>,
    lingers_until: u64,
    /// Whether the outcomes were told, so that none needs to be remembered.
    told: bool,
}

impl End for Round {
    /// Fires timers, gives up what took too long, and asks for more samplers.
    fn tick(&mut self, now: u64) -> Step {
        let mut step = Step::default();
        for (shown, cost) in step.fire(&mut self.table, now) {
            self.shown(now, &shown, Cause::Timer, cost, &mut step);
        }
        self.give_up(now, &mut step);
        self.ask_more(now, &mut step);
        step
    }

    fn hear(&mut self, now: u64, packet: &Packet) -> Step {
        self.datagram(now, &packet.octets)
    }

    fn table(&self) -> &Table {
        &self.table
    }

    /// A line for each sampler until the outcomes were told.
    fn notes(&self) -> Notes {
        let mut notes = Notes::default();
        let samplers = self.samplers.iter().enumerate().filter(|_| !self.told);
        samplers.for_each(|(place, sampler)| notes.add(SAMPLER, format!("{sampler} {}", self.standing(place))));
        notes
    }

    /// More samplers are asked for when a record ends, which a deadline or a datagram brings about.
    fn next(&self) -> Option<u64> {
        let late = self.asked.iter().map(|asked| asked.since.saturating_add(self.manner.patience)).min();
        earliest(&[due(&self.table), late, self.is_finished().then_some(self.lingers_until)])
    }
}

impl Round {
    pub fn new(table: Table, samplers: Vec<Sampler>, manner: Manner) -> Round {
        let (outcomes, costs) = (vec![None; samplers.len()], vec![0; samplers.len()]);
        let to_ask = (0..samplers.len()).collect();
        Round { table, manner, samplers, outcomes, costs, to_ask, asked: Vec::new(), lingers_until: 0, told: false }
    }

    /// Goes on from what was kept: with the samplers that were noted, or with any where the outcomes of the last ones were told. A
    /// sampler whose record isn't live any more is asked for again.
    pub fn resumed(resumed: &Resumed, samplers: Vec<Sampler>, manner: Manner) -> Result<Round, String> {
        let noted: Vec<Noted> = resumed.notes.values(SAMPLER).map_err(|what| resumed.wrong(&what))?;
        let live = live(&resumed.table);
        let lingers_until = resumed.clock().saturating_add(manner.linger);
        let mut round = Round { lingers_until, ..Round::new(resumed.table.clone(), samplers, manner) };
        if noted.is_empty() {
            return Ok(round);
        }
        if !noted.iter().map(|noted| &noted.sampler).eq(&round.samplers) {
            return Err(resumed.wrong("is of a round that isn't over, with other samplers"));
        }
        for (place, Noted { standing, .. }) in noted.into_iter().enumerate() {
            match standing {
                Standing::Asked { tid, since } if live.contains(&name(tid)) => round.asked.push(Asked { tid, place, since }),
                Standing::Known { outcome, cost } => round.finish(place, outcome, cost),
                Standing::Asked { .. } | Standing::ToAsk => continue,
            }
            round.to_ask.retain(|waiting| *waiting != place);
        }
        Ok(round)
    }

    /// The outcomes were told: the next start is another round.
    pub fn told(&mut self) {
        self.told = true;
    }

    fn standing(&self, place: usize) -> Standing {
        let asked = self.asked.iter().find(|asked| asked.place == place);
        match (&self.outcomes[place], asked) {
            (Some(outcome), _) => Standing::Known { outcome: outcome.clone(), cost: self.costs[place] },
            (None, Some(Asked { tid, since, .. })) => Standing::Asked { tid: *tid, since: *since },
            (None, None) => Standing::ToAsk,
        }
    }

    pub fn datagram(&mut self, now: u64, datagram: &[u8]) -> Step {
        let mut step = Step::default();
        for pdu in step.separated(GATEWAY, datagram) {
            let taken = self.table.receive(now, GATEWAY, pdu);
            let cost = cost(&taken);
            for shown in step.take(GATEWAY, taken) {
                self.shown(now, &shown, Cause::Received, cost, &mut step);
            }
        }
        step
    }

    /// Aborts what is live, so that the gateway isn't left waiting; what has no outcome yet gets none any more.
    pub fn interrupt(&mut self, now: u64) -> Step {
        self.stop(now, Why::Interrupted)
    }

    /// The same for another reason.
    pub fn stop(&mut self, now: u64, why: Why) -> Step {
        let mut step = Step::default();
        for Asked { tid, place, .. } in std::mem::take(&mut self.asked) {
            let cost = self.abort(now, tid, reason::STOPPED, &mut step);
            self.finish(place, Outcome::NoAnswer(why), cost);
        }
        self.to_ask.clear();
        for outcome in &mut self.outcomes {
            outcome.get_or_insert(Outcome::NoAnswer(why));
        }
        step
    }

    /// The outcome of each sampler, in the order of the samplers; none as long as it isn't there.
    pub fn outcomes(&self) -> &[Option<Outcome>] {
        &self.outcomes
    }

    /// What the request for each sampler cost up to its outcome, in octets; 0 as long as there is none, or where it wasn't asked for.
    pub fn costs(&self) -> &[u32] {
        &self.costs
    }

    pub fn finished(&self) -> usize {
        self.outcomes.iter().flatten().count()
    }

    pub fn waiting(&self) -> usize {
        self.asked.len()
    }

    pub fn is_finished(&self) -> bool {
        self.finished() == self.samplers.len()
    }

    /// Finished, and no repeat of a result is expected any more.
    pub fn is_over(&self, now: u64) -> bool {
        self.is_finished() && now >= self.lingers_until
    }

    fn ask_more(&mut self, now: u64, step: &mut Step) {
        while let Some(place) = self.to_ask.front().copied() {
            let taken = self.table.request(now, GATEWAY, 2, self.manner.user_ack, &self.samplers[place].request());
            match taken.as_ref().map(|taken| taken.tid) {
                // A record ends sooner or later, so it is tried again.
                Err(Refused::TableFull | Refused::TidInUse) => return,
                Ok(Some(tid)) => self.asked.push(Asked { tid, place, since: now }),
                Ok(None) => self.finish(place, Outcome::NoAnswer(Why::NotAsked(Refused::Unreadable)), 0),
                Err(why) => self.finish(place, Outcome::NoAnswer(Why::NotAsked(*why)), 0),
            }
            step.take(GATEWAY, taken);
            self.to_ask.pop_front();
        }
    }

    fn give_up(&mut self, now: u64, step: &mut Step) {
        let patience = self.manner.patience;
        let (late, asked) =
            std::mem::take(&mut self.asked).into_iter().partition(|asked| now.saturating_sub(asked.since) >= patience);
        self.asked = asked;
        let late: Vec<Asked> = late;
        for Asked { tid, place, since } in late {
            let cost = self.abort(now, tid, reason::GAVE_UP, step);
            self.finish(place, Outcome::NoAnswer(Why::GaveUp(now.saturating_sub(since))), cost);
        }
    }

    fn shown(&mut self, now: u64, shown: &Shown, cause: Cause, cost: u32, step: &mut Step) {
        let Name { tid, .. } = shown.of();
        let outcome = match Outcome::of(shown, cause) {
            Some(outcome) => outcome,
            None => return,
        };
        let place = match self.asked.iter().position(|asked| asked.tid == tid) {
            Some(found) => self.asked.swap_remove(found).place,
            None => return step.say(format!("TID {tid}: after its outcome was known: {} {outcome}", outcome.kind())),
        };
        match outcome {
            Outcome::Value(_) | Outcome::EmptyResult => self.answer(now, tid, step),
            Outcome::Abort(Aborted::Unreadable(_)) => {
                self.abort(now, tid, reason::UNREADABLE, step);
            }
            Outcome::Abort(Aborted::Shown(_)) | Outcome::NoAnswer(_) => {}
        }
        self.finish(place, outcome, cost);
    }

    /// The first outcome stays, and what it cost.
    fn finish(&mut self, place: usize, outcome: Outcome, cost: u32) {
        if let Some(empty @ None) = self.outcomes.get_mut(place) {
            *empty = Some(outcome);
            self.costs[place] = cost;
        }
    }

    fn answer(&mut self, now: u64, tid: u16, step: &mut Step) {
        let taken = self.table.answer(now, name(tid), &[]);
        step.take(GATEWAY, taken);
        self.lingers_until = now.saturating_add(self.manner.linger);
    }

    /// Aborts a request, and gives back what it has cost.
    fn abort(&mut self, now: u64, tid: u16, reason: u8, step: &mut Step) -> u32 {
        let taken = self.table.abort(now, name(tid), reason);
        let cost = cost(&taken);
        step.take(GATEWAY, taken);
        cost
    }
}

fn name(tid: u16) -> Name {
    Name { role: Role::Initiator, peer: GATEWAY, tid }
}
