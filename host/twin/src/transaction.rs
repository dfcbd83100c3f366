//! A live record that meets an event, and the steps that the rows share.

use crate::answer::Indication;
use crate::engine::Engine;
use crate::event::Event;
use crate::record::{Class, Name, Record, Role, State};
use crate::sending::{self, NORESPONSE, PROTOERR, PROVIDER, USER};
use crate::{bounds, initiator, responder, Row};

/// The row that was reached; an error is a primitive that the state doesn't allow, and then nothing has changed.
pub type Outcome = Result<Row, Row>;

pub struct Transaction<'e, 'a> {
    pub engine: &'e mut Engine<'a>,
    pub place: usize,
    pub record: Record,
}

impl Transaction<'_, '_> {
    pub fn meet(self, event: Event) -> Outcome {
        match self.record.state {
            State::Initiator(state) => {
                self.engine.answer.cost(self.record.cost);
                initiator::meet(self, state, event)
            }
            State::Responder(state) => responder::meet(self, state, event),
        }
    }

    pub fn name(&self) -> Name {
        self.record.name()
    }

    /// The record goes on as it is now.
    pub fn go_on(self, row: Row) -> Outcome {
        self.engine.table.put(self.place, &self.record);
        Ok(row)
    }

    pub fn end(self, row: Row) -> Outcome {
        if self.record.state.role() == Role::Initiator {
            self.engine.answer.cost_ended();
        }
        self.engine.table.free(self.place);
        Ok(row)
    }

    pub fn show(&mut self, indication: Indication) {
        self.engine.show(self.record.name(), indication);
    }

    /// An ordinary timer: no waiting limit is in force.
    fn start_timer(&mut self, interval: u64) {
        self.record.deadline = Some(self.engine.now + interval);
        self.record.limit = 0;
    }

    /// No timer: a wait that has none, or, with the mode on, one that the waiting limit ends.
    pub fn start_no_timer(&mut self) {
        let limit = self.engine.table.waiting_limit();
        self.record.deadline = (limit != 0).then_some(self.engine.now + limit);
        self.record.limit = limit as u32;
    }

    /// Whether the deadline is a waiting limit, in a wait that has one.
    pub fn is_limited(&self) -> bool {
        self.record.limit != 0
    }

    pub fn start_timer_a(&mut self) {
        self.start_timer(self.engine.table.interval_a());
    }

    pub fn start_timer_w(&mut self) {
        self.start_timer(self.engine.table.interval_w());
    }

    pub fn start_timer_r(&mut self, class: Class) {
        self.start_timer(self.engine.table.interval_r(class, self.record.rcr));
    }

    pub fn may_send_again(&self) -> bool {
        self.record.rcr < self.engine.table.rcr_max()
    }

    /// Counts a PDU sent after the first one, and waits for R[RCR].
    pub fn count_again(&mut self, class: Class) {
        self.record.rcr += 1;
        self.start_timer_r(class);
    }

    /// Adds the PDU that was sent to what the record has cost, as far as that may go.
    pub fn count_cost(&mut self) {
        let most = bounds::cost(self.engine.table.rcr_max());
        self.record.cost = most.min(self.record.cost + self.engine.answer.length());
        self.engine.answer.cost(self.record.cost);
    }

    /// TIDve of a responder, TIDok of an initiator.
    pub fn send_tid_test(&mut self, repeat: bool) {
        self.engine.send(&sending::ack(true, repeat, self.record.name()));
    }

    pub fn send_hold_on(&mut self, repeat: bool) {
        self.send_plain_ack(repeat, 0);
    }

    /// The last Ack for the first time: with the user's exit information, which the record keeps.
    pub fn send_last_ack(&mut self, exit: &[u8]) {
        self.engine.table.put_exit(self.place, exit);
        self.record.exit_length = exit.len() as u8;
        self.send_last_ack_from_record(false);
    }

    pub fn send_last_ack_again(&mut self) {
        self.send_last_ack_from_record(true);
    }

    fn send_last_ack_from_record(&mut self, repeat: bool) {
        self.send_plain_ack(repeat, self.record.exit_length);
    }

    /// Hold-on and last Ack name the unknown item that the record keeps.
    fn send_plain_ack(&mut self, repeat: bool, exit_length: u8) {
        self.engine.send_plain_ack(repeat, self.record.name(), self.record.unknown, self.place, exit_length);
    }

    fn send_abort(&mut self, kind: u8, reason: u8) {
        self.engine.send(&sending::abort(kind, reason, self.record.name()));
    }

    /// The provider aborts: an Abort for the peer, an indication for the user.
    pub fn give_up(mut self, reason: u8, row: Row) -> Outcome {
        self.send_abort(PROVIDER, reason);
        self.show(Indication::Abort { kind: PROVIDER, reason });
        self.end(row)
    }

    /// Nothing was heard after all repeats.
    pub fn end_unheard(mut self, row: Row) -> Outcome {
        self.show(Indication::Abort { kind: PROVIDER, reason: NORESPONSE });
        self.end(row)
    }

    /// The acknowledgement timer while the user's acknowledgement is awaited.
    pub fn await_user(mut self, again: Row, end: Row) -> Outcome {
        if self.record.aec >= self.engine.table.aec_max() {
            return self.give_up(NORESPONSE, end);
        }
        self.record.aec += 1;
        self.start_timer_a();
        self.go_on(again)
    }

    pub fn aborted_by_peer(mut self, kind: u8, reason: u8, row: Row) -> Outcome {
        self.show(Indication::Abort { kind, reason });
        self.end(row)
    }

    pub fn malformed(self, row: Row) -> Outcome {
        self.give_up(PROTOERR, row)
    }

    /// As `malformed`, where the user knows nothing of the record.
    pub fn malformed_unshown(mut self, row: Row) -> Outcome {
        self.send_abort(PROVIDER, PROTOERR);
        self.end(row)
    }

    pub fn aborted_by_user(mut self, reason: u8, row: Row) -> Outcome {
        self.send_abort(USER, reason);
        self.end(row)
    }
}
