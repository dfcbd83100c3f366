//! The responder's rows.

use crate::answer::{Data, Indication};
use crate::bounds;
use crate::event::Event;
use crate::pdu::Part;
use crate::record::{Class, ResponderState, State};
use crate::sending::{self, NORESPONSE};
use crate::transaction::{Outcome, Transaction};
use crate::Row;

pub fn meet(at: Transaction, state: ResponderState, event: Event) -> Outcome {
    match state {
        ResponderState::TidokWait(class) => tidok_wait(at, class, event),
        ResponderState::InvokeRespWait(class) => invoke_resp_wait(at, class, event),
        ResponderState::ResultWait => result_wait(at, event),
        ResponderState::ResultRespWait => result_resp_wait(at, event),
        ResponderState::WaitTimeout => wait_timeout(at, event),
    }
}

fn tidok_wait(mut at: Transaction, class: Class, event: Event) -> Outcome {
    match event {
        Event::Ack { tid_test: true, .. } => verified(at, class),
        Event::Ack { tid_test: false, .. } => Ok(Row::RTidokWaitAck),
        Event::Invoke { rid: true } => {
            at.send_tid_test(true);
            Ok(Row::RTidokWaitInvokeAgain)
        }
        Event::Invoke { rid: false } => Ok(Row::RTidokWaitInvoke),
        Event::SegmentedOrNack => Ok(Row::RTidokWaitSegmented),
        Event::Timer if at.is_limited() => at.end(Row::RTidokWaitLimit),
        Event::Timer => Ok(Row::RTidokWaitTimer),
        Event::Abort { .. } => at.end(Row::RTidokWaitAbort),
        Event::Malformed => at.malformed_unshown(Row::RTidokWaitMalformed),
        Event::UserAnswer { .. } => Err(Row::RTidokWaitUserAnswer),
        Event::UserResult { .. } => Err(Row::RTidokWaitUserResult),
        Event::UserAbort { .. } => Err(Row::RTidokWaitUserAbort),
        Event::Result { .. } => Ok(Row::ResultTheWrongWay),
    }
}

/// The Invoke kept in the cell is shown. A verified TID is cached only where none is.
fn verified(mut at: Transaction, class: Class) -> Outcome {
    let data = Data::Store(Part { start: bounds::CELL * at.place, length: at.record.message_length as usize });
    at.show(Indication::Invoke { class: class as u8, user_ack: at.record.user_ack, data });
    let cached = at.engine.table.last_tid(at.record.peer).is_some();
    if !cached {
        at.engine.table.set_last_tid(at.record.peer, at.record.tid);
    }
    at.await_answer(class);
    at.go_on(if cached { Row::RTidokWaitTidokCached } else { Row::RTidokWaitTidokNothingCached })
}

impl Transaction<'_, '_> {
    /// The user was shown the Invoke.
    pub fn await_answer(&mut self, class: Class) {
        self.record.aec = 0;
        self.start_timer_a();
        self.record.state = State::Responder(ResponderState::InvokeRespWait(class));
    }
}

fn invoke_resp_wait(at: Transaction, class: Class, event: Event) -> Outcome {
    match event {
        Event::UserAnswer { exit } => answered(at, class, exit),
        Event::UserResult { data } if class == Class::Two => give_result(at, data, Row::RInvokeRespWaitResult),
        Event::UserResult { .. } => Err(Row::RInvokeRespWaitUserResult),
        Event::Timer if at.record.user_ack => at.await_user(Row::RInvokeRespWaitTimerAgain, Row::RInvokeRespWaitTimerEnd),
        Event::Timer => match class {
            Class::One => acknowledge(at, &[], Row::RInvokeRespWaitTimerClass1),
            Class::Two => hold_on(at, Row::RInvokeRespWaitTimerClass2),
        },
        Event::Invoke { .. } => Ok(Row::RInvokeRespWaitInvoke),
        Event::Ack { .. } => Ok(Row::RInvokeRespWaitAck),
        Event::SegmentedOrNack => Ok(Row::RInvokeRespWaitSegmented),
        Event::Abort { kind, reason } => at.aborted_by_peer(kind, reason, Row::RInvokeRespWaitAbort),
        Event::Malformed => at.malformed(Row::RInvokeRespWaitMalformed),
        Event::UserAbort { reason } => at.aborted_by_user(reason, Row::RInvokeRespWaitUserAbort),
        Event::Result { .. } => Ok(Row::ResultTheWrongWay),
    }
}

fn answered(mut at: Transaction, class: Class, exit: &[u8]) -> Outcome {
    if class == Class::One {
        let row = if exit.is_empty() { Row::RInvokeRespWaitAnswerClass1 } else { Row::RInvokeRespWaitAnswerClass1Exit };
        return acknowledge(at, exit, row);
    }
    at.start_timer_a();
    at.record.state = State::Responder(ResponderState::ResultWait);
    at.go_on(Row::RInvokeRespWaitAnswerClass2)
}

/// The last Ack of a class 1 transaction.
fn acknowledge(mut at: Transaction, exit: &[u8], row: Row) -> Outcome {
    at.send_last_ack(exit);
    at.start_timer_w();
    at.record.state = State::Responder(ResponderState::WaitTimeout);
    at.go_on(row)
}

fn hold_on(mut at: Transaction, row: Row) -> Outcome {
    at.send_hold_on(false);
    at.record.hold_on_sent = true;
    at.start_no_timer();
    at.record.state = State::Responder(ResponderState::ResultWait);
    at.go_on(row)
}

fn give_result(mut at: Transaction, data: &[u8], row: Row) -> Outcome {
    at.engine.send_with(&sending::result(false, at.name()), data);
    at.engine.keep(at.place, data);
    at.record.message_length = data.len() as u32;
    at.record.rcr = 0;
    at.start_timer_r(Class::Two);
    at.record.state = State::Responder(ResponderState::ResultRespWait);
    at.go_on(row)
}

fn result_wait(mut at: Transaction, event: Event) -> Outcome {
    match event {
        Event::UserResult { data } => give_result(at, data, Row::RResultWaitResult),
        Event::Timer if at.record.hold_on_sent && at.is_limited() => at.give_up(NORESPONSE, Row::RResultWaitLimit),
        Event::Timer => hold_on(at, Row::RResultWaitTimer),
        Event::Invoke { rid: true } if at.record.hold_on_sent => {
            at.send_hold_on(true);
            Ok(Row::RResultWaitInvokeAgain)
        }
        Event::Invoke { rid: true } => Ok(Row::RResultWaitInvokeNoHoldOn),
        Event::Invoke { rid: false } => Ok(Row::RResultWaitInvoke),
        Event::Ack { .. } => Ok(Row::RResultWaitAck),
        Event::SegmentedOrNack => Ok(Row::RResultWaitSegmented),
        Event::Abort { kind, reason } => at.aborted_by_peer(kind, reason, Row::RResultWaitAbort),
        Event::Malformed => at.malformed(Row::RResultWaitMalformed),
        Event::UserAbort { reason } => at.aborted_by_user(reason, Row::RResultWaitUserAbort),
        Event::UserAnswer { .. } => Err(Row::RResultWaitUserAnswer),
        Event::Result { .. } => Ok(Row::ResultTheWrongWay),
    }
}

fn result_resp_wait(mut at: Transaction, event: Event) -> Outcome {
    match event {
        Event::Ack { tid_test: false, info, .. } => {
            at.show(Indication::Confirmation { data: info });
            at.end(Row::RResultRespWaitAck)
        }
        Event::Ack { tid_test: true, .. } => Ok(Row::RResultRespWaitTidok),
        Event::Timer => send_result_again(at),
        Event::Invoke { .. } => Ok(Row::RResultRespWaitInvoke),
        Event::SegmentedOrNack => Ok(Row::RResultRespWaitSegmented),
        Event::Abort { kind, reason } => at.aborted_by_peer(kind, reason, Row::RResultRespWaitAbort),
        Event::Malformed => at.malformed(Row::RResultRespWaitMalformed),
        Event::UserAbort { reason } => at.aborted_by_user(reason, Row::RResultRespWaitUserAbort),
        Event::UserAnswer { .. } => Err(Row::RResultRespWaitUserAnswer),
        Event::UserResult { .. } => Err(Row::RResultRespWaitUserResult),
        Event::Result { .. } => Ok(Row::ResultTheWrongWay),
    }
}

fn send_result_again(mut at: Transaction) -> Outcome {
    if !at.may_send_again() {
        return at.end_unheard(Row::RResultRespWaitTimerEnd);
    }
    at.engine.send_kept(&sending::result(true, at.name()), at.place, at.record.message_length);
    at.count_again(Class::Two);
    at.go_on(Row::RResultRespWaitTimerAgain)
}

fn wait_timeout(at: Transaction, event: Event) -> Outcome {
    match event {
        Event::Invoke { rid: true } => acknowledge_again(at, Row::RWaitTimeoutInvokeAgain, Row::RWaitTimeoutInvokeAgainExit),
        Event::Invoke { rid: false } => Ok(Row::RWaitTimeoutInvoke),
        Event::Ack { tid_test: true, rid: true, .. } => {
            acknowledge_again(at, Row::RWaitTimeoutTidokAgain, Row::RWaitTimeoutTidokAgainExit)
        }
        Event::Ack { tid_test: true, rid: false, .. } => Ok(Row::RWaitTimeoutTidok),
        Event::Ack { tid_test: false, .. } => Ok(Row::RWaitTimeoutAck),
        Event::SegmentedOrNack => Ok(Row::RWaitTimeoutSegmented),
        Event::Timer => at.end(Row::RWaitTimeoutTimer),
        Event::Abort { kind, reason } => at.aborted_by_peer(kind, reason, Row::RWaitTimeoutAbort),
        Event::Malformed => at.malformed(Row::RWaitTimeoutMalformed),
        Event::UserAbort { reason } => at.aborted_by_user(reason, Row::RWaitTimeoutUserAbort),
        Event::UserAnswer { .. } => Err(Row::RWaitTimeoutUserAnswer),
        Event::UserResult { .. } => Err(Row::RWaitTimeoutUserResult),
        Event::Result { .. } => Ok(Row::ResultTheWrongWay),
    }
}

fn acknowledge_again(mut at: Transaction, without_exit: Row, with_exit: Row) -> Outcome {
    at.send_last_ack_again();
    Ok(if at.record.exit_length == 0 { without_exit } else { with_exit })
}
