//! The initiator's rows.

use crate::answer::{Data, Indication};
use crate::event::Event;
use crate::record::{Class, InitiatorState, State};
use crate::sending::{self, NOTIMPLEMENTEDSAR};
use crate::transaction::{Outcome, Transaction};
use crate::Row;

pub fn meet(at: Transaction, state: InitiatorState, event: Event) -> Outcome {
    match state {
        InitiatorState::ResultWait(class) => result_wait(at, class, event),
        InitiatorState::ResultRespWait => result_resp_wait(at, event),
        InitiatorState::WaitTimeout => wait_timeout(at, event),
    }
}

fn result_wait(at: Transaction, class: Class, event: Event) -> Outcome {
    match event {
        Event::Ack { tid_test: true, .. } => tidve(at, class),
        Event::Ack { tid_test: false, info, .. } => acknowledged(at, class, info),
        Event::Result { ttr, data, unknown, .. } => result(at, class, ttr, data, unknown),
        Event::Timer if class == Class::Two && at.record.hold_on && at.is_limited() => at.end_unheard(Row::IResultWaitLimit),
        Event::Timer => send_again(at, class),
        Event::SegmentedOrNack => Ok(Row::IResultWaitSegmented),
        Event::Abort { kind, reason } => at.aborted_by_peer(kind, reason, Row::IResultWaitAbort),
        Event::Malformed => at.malformed(Row::IResultWaitMalformed),
        Event::UserAbort { reason } => at.aborted_by_user(reason, Row::IResultWaitUserAbort),
        Event::UserAnswer { .. } => Err(Row::IResultWaitUserAnswer),
        Event::UserResult { .. } => Err(Row::IResultWaitUserResult),
        Event::Invoke { .. } => Ok(Row::InvokeTheWrongWay),
    }
}

fn tidve(mut at: Transaction, class: Class) -> Outcome {
    if !at.may_send_again() {
        return Ok(Row::IResultWaitTidveIgnored);
    }
    let again = at.record.tidok_sent;
    at.send_tid_test(again);
    at.record.tidok_sent = true;
    at.count_cost();
    at.count_again(class);
    at.go_on(if again { Row::IResultWaitTidokAgain } else { Row::IResultWaitFirstTidok })
}

fn acknowledged(mut at: Transaction, class: Class, info: Data) -> Outcome {
    if class == Class::Two && at.record.hold_on {
        return Ok(Row::IResultWaitLaterAck);
    }
    at.show(Indication::Confirmation { data: info });
    if class == Class::One {
        return at.end(Row::IResultWaitAckClass1);
    }
    at.record.hold_on = true;
    at.start_no_timer();
    at.go_on(Row::IResultWaitFirstAck)
}

fn result(mut at: Transaction, class: Class, ttr: bool, data: Data, unknown: u8) -> Outcome {
    if class == Class::One {
        return Ok(Row::IResultWaitResultClass1);
    }
    if !ttr {
        return at.give_up(NOTIMPLEMENTEDSAR, Row::IResultWaitResultTtrClear);
    }
    let confirmed = at.record.hold_on;
    if !confirmed {
        at.show(Indication::Confirmation { data: Data::none() });
    }
    at.show(Indication::Result { data });
    at.record.unknown = unknown;
    at.record.aec = 0;
    at.start_timer_a();
    at.record.state = State::Initiator(InitiatorState::ResultRespWait);
    at.go_on(if confirmed { Row::IResultWaitResultHoldOn } else { Row::IResultWaitResult })
}

fn send_again(mut at: Transaction, class: Class) -> Outcome {
    if !at.may_send_again() {
        return at.end_unheard(Row::IResultWaitTimerEnd);
    }
    let tidok = at.record.tidok_sent;
    if tidok {
        at.send_tid_test(true);
    } else {
        let header = sending::invoke(true, at.name(), class as u8, at.record.user_ack, at.record.tidnew);
        at.engine.send_kept(&header, at.place, at.record.message_length);
    }
    at.count_cost();
    at.count_again(class);
    at.go_on(if tidok { Row::IResultWaitTimerTidok } else { Row::IResultWaitTimerInvoke })
}

fn result_resp_wait(at: Transaction, event: Event) -> Outcome {
    match event {
        Event::UserAnswer { exit: [] } => acknowledge(at, &[], Row::IResultRespWaitAnswer),
        Event::UserAnswer { exit } => acknowledge(at, exit, Row::IResultRespWaitAnswerExit),
        Event::Timer if !at.record.user_ack => acknowledge(at, &[], Row::IResultRespWaitTimerAck),
        Event::Timer => at.await_user(Row::IResultRespWaitTimerAgain, Row::IResultRespWaitTimerEnd),
        Event::Result { .. } => Ok(Row::IResultRespWaitResult),
        Event::Ack { .. } => Ok(Row::IResultRespWaitAck),
        Event::SegmentedOrNack => Ok(Row::IResultRespWaitSegmented),
        Event::Abort { kind, reason } => at.aborted_by_peer(kind, reason, Row::IResultRespWaitAbort),
        Event::Malformed => at.malformed(Row::IResultRespWaitMalformed),
        Event::UserAbort { reason } => at.aborted_by_user(reason, Row::IResultRespWaitUserAbort),
        Event::UserResult { .. } => Err(Row::IResultRespWaitUserResult),
        Event::Invoke { .. } => Ok(Row::InvokeTheWrongWay),
    }
}

fn acknowledge(mut at: Transaction, exit: &[u8], row: Row) -> Outcome {
    at.send_last_ack(exit);
    at.start_timer_w();
    at.record.state = State::Initiator(InitiatorState::WaitTimeout);
    at.go_on(row)
}

fn wait_timeout(at: Transaction, event: Event) -> Outcome {
    match event {
        Event::Result { rid: true, .. } => acknowledge_again(at),
        Event::Result { rid: false, .. } => Ok(Row::IWaitTimeoutResult),
        Event::Timer => at.end(Row::IWaitTimeoutTimer),
        Event::Ack { .. } => Ok(Row::IWaitTimeoutAck),
        Event::SegmentedOrNack => Ok(Row::IWaitTimeoutSegmented),
        Event::Abort { kind, reason } => at.aborted_by_peer(kind, reason, Row::IWaitTimeoutAbort),
        Event::Malformed => at.malformed(Row::IWaitTimeoutMalformed),
        Event::UserAbort { reason } => at.aborted_by_user(reason, Row::IWaitTimeoutUserAbort),
        Event::UserAnswer { .. } => Err(Row::IWaitTimeoutUserAnswer),
        Event::UserResult { .. } => Err(Row::IWaitTimeoutUserResult),
        Event::Invoke { .. } => Ok(Row::InvokeTheWrongWay),
    }
}

fn acknowledge_again(mut at: Transaction) -> Outcome {
    at.send_last_ack_again();
    Ok(if at.record.exit_length == 0 { Row::IWaitTimeoutAckAgain } else { Row::IWaitTimeoutAckAgainExit })
}
