//! Whole transactions between two tables.

mod common;

use common::{initiator, responder, table, PEER, SETTINGS};
use wtp::{Abort, Cost, Deadline, NonEmpty, Reason, Settings, Shown, Table, Taken, Unknown};

/// A reader, which requests, a gateway, which answers, and their common clock.
struct Link {
    reader: Table,
    gateway: Table,
    now: u64,
}

/// What the users of either end were shown while PDUs went to and fro.
#[derive(Default)]
struct Seen {
    reader: Vec<Shown>,
    gateway: Vec<Shown>,
}

impl Link {
    fn new() -> Link {
        Link { reader: table(4), gateway: table(4), now: 0 }
    }

    fn tick(&mut self) -> u64 {
        self.now += 1;
        self.now
    }

    /// Takes PDUs to and fro until neither end has one to send; the first one goes to the gateway or to the reader.
    fn deliver(&mut self, first: Taken, mut to_gateway: bool) -> Seen {
        let mut seen = Seen::default();
        let mut sent = first.sent;
        while let Some(pdu) = sent {
            let now = self.tick();
            let end = if to_gateway { &mut self.gateway } else { &mut self.reader };
            let taken = end.receive(now, PEER, &pdu).unwrap();
            let users = if to_gateway { &mut seen.gateway } else { &mut seen.reader };
            users.extend(taken.shown);
            sent = taken.sent;
            to_gateway = !to_gateway;
        }
        seen
    }

    fn ask(&mut self, class: u8, question: &[u8]) -> (u16, Seen) {
        let now = self.tick();
        let taken = self.reader.request(now, PEER, class, false, question).unwrap();
        (taken.tid.unwrap(), self.deliver(taken, true))
    }

    fn reply(&mut self, tid: u16, data: &[u8]) -> Seen {
        let now = self.tick();
        let taken = self.gateway.result(now, responder(tid), data).unwrap();
        self.deliver(taken, false)
    }

    fn acknowledge(&mut self, tid: u16, exit_information: &[u8]) -> Seen {
        let now = self.tick();
        let taken = self.reader.answer(now, initiator(tid), exit_information).unwrap();
        self.deliver(taken, true)
    }
}

fn non_empty(octets: &[u8]) -> NonEmpty {
    NonEmpty::of(octets.to_vec()).unwrap()
}

fn invoke(tid: u16, class: u8, data: &[u8]) -> Shown {
    Shown::Invoke { of: responder(tid), class, user_ack: false, data: data.to_vec() }
}

fn cost(octets: u32, ended: bool) -> Option<Cost> {
    Some(Cost { octets, ended })
}

fn confirmed(tid: u16) -> Shown {
    Shown::Confirmation { of: initiator(tid), exit_information: None }
}

#[test]
fn a_result_with_data_is_a_result() {
    let mut link = Link::new();
    let (tid, seen) = link.ask(2, b"sampler 17");
    assert_eq!(seen.gateway, [invoke(tid, 2, b"sampler 17")]);
    let seen = link.reply(tid, b"0.8 ug/m3");
    let result = Shown::Result { of: initiator(tid), data: non_empty(b"0.8 ug/m3") };
    assert_eq!(seen.reader, [confirmed(tid), result]);
}

#[test]
fn a_result_without_data_is_an_empty_result() {
    let mut link = Link::new();
    let (tid, _) = link.ask(2, b"sampler 18");
    assert_eq!(link.reply(tid, b"").reader, [confirmed(tid), Shown::EmptyResult { of: initiator(tid) }]);
}

#[test]
fn an_abort_is_an_abort() {
    let mut link = Link::new();
    let (tid, _) = link.ask(2, b"sampler 19");
    let now = link.tick();
    let taken = link.gateway.abort(now, responder(tid), 200).unwrap();
    let seen = link.deliver(taken, false);
    assert_eq!(seen.reader, [Shown::Abort { of: initiator(tid), by: Abort::User(200) }]);
    assert_eq!(seen.reader[0].of(), initiator(tid));
}

#[test]
fn an_unknown_item_is_told_and_named_in_the_last_ack() {
    let mut link = Link::new();
    let (tid, _) = link.ask(2, b"sampler 20");
    let [high, low] = (tid | 0x8000).to_be_bytes();
    let taken = link.reader.receive(link.now, PEER, &[0x96, high, low, 0x8A, 1, 2, 0x4B, 3, 4, 5, b'!']).unwrap();
    assert_eq!(taken.unknown, Some(Unknown { identity: 9, place: 6 }));
    assert_eq!(taken.shown[1], Shown::Result { of: initiator(tid), data: non_empty(b"!") });
    let taken = link.reader.answer(link.now, initiator(tid), b"ok").unwrap();
    let [high, low] = tid.to_be_bytes();
    assert_eq!((taken.sent, taken.unknown), (Some(vec![0x98, high, low, 0x81, 0x19, 0x0A, b'o', b'k']), None));
}

#[test]
fn a_request_costs_its_invokes_and_tidoks_up_to_its_result() {
    let mut reader = table(1);
    let costs = [
        reader.request(0, PEER, 2, false, b"sampler 21").unwrap().cost,
        reader.timer(5_000).unwrap().cost,
        reader.receive(5_010, PEER, &[0x1C, 0x80, 5]).unwrap().cost,
        reader.receive(5_020, PEER, &[0x16, 0x80, 5, b'1']).unwrap().cost,
        reader.answer(5_030, initiator(5), b"thanks").unwrap().cost,
        reader.receive(5_040, PEER, &[0x17, 0x80, 5, b'1']).unwrap().cost,
        reader.receive(5_050, PEER, &[0x17, 0x80, 6]).unwrap().cost,
        reader.timer(35_030).unwrap().cost,
    ];
    let [sent, repeated, after_tidok] = [14, 28, 31].map(|octets| cost(octets, false));
    assert_eq!(costs, [sent, repeated, after_tidok, after_tidok, after_tidok, after_tidok, None, cost(31, true)]);
}

#[test]
fn class_0_and_a_responder_cost_nothing() {
    let mut link = Link::new();
    assert_eq!(link.reader.request(0, PEER, 0, false, b"none").unwrap().cost, None);
    assert_eq!(link.gateway.receive(0, PEER, &[0x0E, 0, 9, 2]).unwrap().cost, None);
    assert_eq!(link.gateway.receive(0, PEER, &[0x1C, 0, 9]).unwrap().cost, None);
    assert_eq!(link.gateway.result(0, responder(9), b"1").unwrap().cost, None);
}

#[test]
fn data_is_found_in_the_store_and_in_the_datagram() {
    let mut link = Link::new();
    // The gateway knows no TID yet: the first Invoke is verified and shown from the store, the second as it comes.
    let (first, seen) = link.ask(2, b"kept while it is verified");
    assert_eq!(seen.gateway, [invoke(first, 2, b"kept while it is verified")]);
    let (second, seen) = link.ask(2, b"shown at once");
    assert_eq!(seen.gateway, [invoke(second, 2, b"shown at once")]);
    assert_eq!((first, second), (5, 6));
}

#[test]
fn a_user_acknowledgement_is_asked_for_and_waited_for() {
    let mut link = Link::new();
    let taken = link.reader.request(0, PEER, 1, true, b"").unwrap();
    let seen = link.deliver(taken, true);
    assert_eq!(seen.gateway, [Shown::Invoke { of: responder(5), class: 1, user_ack: true, data: vec![] }]);
    // AEC_MAX is 1: the second time that the user hasn't answered within A, the provider gives up.
    let waits = link.gateway.timer(link.now + 2_000).unwrap();
    assert_eq!((waits.sent, waits.shown, waits.fired), (None, vec![], Some(responder(5))));
    let gives_up = link.gateway.timer(link.now + 4_000).unwrap();
    assert_eq!(gives_up.sent.as_deref(), Some(&[0x20, 0x80, 0x05, 0x08][..]));
    assert_eq!(gives_up.shown, [Shown::Abort { of: responder(5), by: Abort::Provider(Reason::NoResponse) }]);
}

#[test]
fn exit_information_comes_with_the_confirmation() {
    let mut link = Link::new();
    let (tid, _) = link.ask(2, b"");
    link.reply(tid, b"1");
    let shown = Shown::Confirmation { of: responder(tid), exit_information: Some(non_empty(b"\xAA\xBB")) };
    assert_eq!(link.acknowledge(tid, b"\xAA\xBB").gateway, [shown]);
}

#[test]
fn no_exit_information_is_none() {
    let mut link = Link::new();
    let (tid, _) = link.ask(2, b"");
    link.reply(tid, b"1");
    let shown = Shown::Confirmation { of: responder(tid), exit_information: None };
    assert_eq!(link.acknowledge(tid, b"").gateway, [shown]);
}

#[test]
fn class_1_is_confirmed_and_class_0_only_shown() {
    let mut link = Link::new();
    let (tid, seen) = link.ask(1, b"one");
    assert_eq!(seen.gateway, [invoke(tid, 1, b"one")]);
    let now = link.tick();
    let taken = link.gateway.answer(now, responder(tid), b"bye").unwrap();
    let shown = Shown::Confirmation { of: initiator(tid), exit_information: Some(non_empty(b"bye")) };
    assert_eq!(link.deliver(taken, false).reader, [shown]);
    let (tid, seen) = link.ask(0, b"none");
    assert_eq!(seen.gateway, [invoke(tid, 0, b"none")]);
    assert_eq!(seen.reader, []);
}

#[test]
fn the_timer_resends_and_then_aborts() {
    let mut reader = table(1);
    let first = reader.request(0, PEER, 2, false, b"").unwrap();
    assert_eq!(first.sent.as_deref(), Some(&[0x0E, 0x00, 0x05, 0x22][..]));
    assert_eq!(first.cost, cost(4, false));
    let nothing = Taken { sent: None, shown: vec![], tid: None, fired: None, unknown: None, cost: None };
    assert_eq!(reader.timer(4_999).unwrap(), nothing);
    for (now, octets) in [(5_000, 8), (10_000, 12)] {
        let sent = Some(vec![0x0F, 0x00, 0x05, 0x22]);
        let again = Taken { sent, fired: Some(initiator(5)), cost: cost(octets, false), ..nothing.clone() };
        assert_eq!(reader.timer(now).unwrap(), again);
        assert_eq!(reader.timer(now).unwrap(), nothing);
    }
    let abort = Shown::Abort { of: initiator(5), by: Abort::Provider(Reason::NoResponse) };
    let given_up = Taken { shown: vec![abort], fired: Some(initiator(5)), cost: cost(12, true), ..nothing };
    assert_eq!(reader.timer(15_000).unwrap(), given_up);
}

#[test]
fn the_timer_is_the_earliest_deadline_and_its_firing() {
    let mut reader = table(2);
    assert_eq!(reader.deadline(), Ok(None));
    reader.request(0, PEER, 2, false, b"").unwrap();
    reader.request(0, PEER, 1, false, b"").unwrap();
    assert_eq!(reader.deadline(), Ok(Some(Deadline { at: 4_000, of: initiator(6) })));
    let mut whole = reader.clone();
    let fired = reader.fire(4_000, initiator(6)).unwrap();
    assert_eq!((fired.sent.as_deref(), fired.fired), (Some(&[0x0F, 0x00, 0x06, 0x01][..]), Some(initiator(6))));
    assert_eq!(whole.timer(4_000), Ok(fired));
    assert!(whole == reader);
    assert_eq!(reader.deadline(), Ok(Some(Deadline { at: 5_000, of: initiator(5) })));
}

#[test]
fn a_due_record_that_is_not_the_earliest_may_be_fired() {
    let mut reader = table(2);
    reader.request(0, PEER, 2, false, b"").unwrap();
    reader.request(0, PEER, 1, false, b"").unwrap();
    assert_eq!(reader.fire(5_000, initiator(5)).unwrap().fired, Some(initiator(5)));
    assert_eq!(reader.deadline(), Ok(Some(Deadline { at: 4_000, of: initiator(6) })), "in the past, and still there");
    assert_eq!(reader.timer(5_000).unwrap().fired, Some(initiator(6)));
}

#[test]
fn a_wait_without_a_timer_ends_with_the_waiting_limit() {
    let limited = Settings { waiting_limit: Some(60_000), ..SETTINGS };
    let mut gateway = Table::fresh(1, &limited, 5).unwrap();
    gateway.receive(0, PEER, &[0x0E, 0x00, 0x05, 0x02]).unwrap();
    assert_eq!(gateway.deadline(), Ok(Some(Deadline { at: 60_000, of: responder(5) })), "it is verified");
    let nothing = Taken { sent: None, shown: vec![], tid: None, fired: Some(responder(5)), unknown: None, cost: None };
    assert_eq!(gateway.fire(60_000, responder(5)), Ok(nothing.clone()));
    assert_eq!(gateway.deadline(), Ok(None));
    let mut reader = Table::fresh(1, &limited, 5).unwrap();
    reader.request(0, PEER, 2, false, b"").unwrap();
    assert_eq!(reader.receive(10, PEER, &[0x18, 0x80, 0x05]).unwrap().shown, [confirmed(5)], "it is held on");
    let abort = Shown::Abort { of: initiator(5), by: Abort::Provider(Reason::NoResponse) };
    let ended = Taken { shown: vec![abort], fired: Some(initiator(5)), cost: cost(4, true), ..nothing };
    assert_eq!(reader.timer(60_010), Ok(ended));
}

#[test]
fn a_kept_table_goes_on() {
    let mut link = Link::new();
    let (tid, _) = link.ask(2, b"sampler 20");
    let (octets, store) = link.gateway.octets();
    link.gateway = Table::kept(octets.to_vec(), store.to_vec());
    assert_eq!(link.reply(tid, b"").reader, [confirmed(tid), Shown::EmptyResult { of: initiator(tid) }]);
}

#[test]
fn aborts_are_put_in_words() {
    assert_eq!(Abort::User(200).to_string(), "aborted by the user: reason 200");
    assert_eq!(Abort::Provider(Reason::from(8)).to_string(), "aborted by the provider: no response");
    assert_eq!(Abort::Provider(Reason::from(99)).to_string(), "aborted by the provider: reason 99");
}
