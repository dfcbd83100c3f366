//! The cases: a start, a call, and the number that it answers.

use crate::call::Call;
use crate::frames;
use crate::pdus;
use crate::side::{Buffers, Library, Named, Side, SIDES};
use crate::start::{self, BEFORE, R_CLASS_1};
use wtp::ffi;

const NOW: u64 = BEFORE + 1;
const DUE: u64 = BEFORE + R_CLASS_1;
const RECORDS: [u8; 3] = [1, 8, 48];
const TABLE_FULL: u64 = 7;

pub struct Case {
    pub name: &'static str,
    pub records: Option<u8>,
    pub start: Buffers,
    pub call: Call,
    pub number: u64,
}

impl Case {
    /// The name that `--one` and the file of instructions have for it.
    pub fn key(&self) -> String {
        key(self.name, self.records)
    }

    /// Whether the library and the twin answer the same, in the number and in every octet and word that they were lent.
    pub fn agrees(&self) -> Result<(), String> {
        let mut before: Option<Buffers> = None;
        for (side, calls) in SIDES.iter().filter(|(side, _)| *side != "nothing") {
            let mut lent = self.start.clone();
            let number = self.call.make(*calls, &mut lent);
            if number != self.number {
                return Err(format!("'{}': the {side} answered {number} where {} is right", self.key(), self.number));
            }
            if before.get_or_insert_with(|| lent.clone()) != &lent {
                return Err(format!("'{}': the two sides left different octets or words", self.key()));
            }
        }
        Ok(())
    }
}

/// The codec's cases; their PDUs have items.
const CODEC: [&str; 8] = [
    "read an Invoke",
    "read a Result",
    "read an Ack",
    "write an Invoke",
    "write a Result",
    "write an Ack",
    "separate three PDUs",
    "join three PDUs",
];

/// The engine's cases, each for every count of records.
const ENGINE: [&str; 13] = [
    "request",
    "request refused",
    "receive an Invoke",
    "receive an unknown item",
    "receive an Ack",
    "receive a Result",
    "answer",
    "answer, unknown item",
    "result",
    "timer, none due",
    "timer that fires",
    "tell the next deadline",
    "fire a record",
];

/// Which cases: those of WTP, or those of the Reliable Data Service.
#[derive(Clone, Copy, PartialEq, Eq)]
pub enum Of {
    Wtp,
    Rds,
}

/// The names of all cases, as `--one` takes them.
pub fn keys(of: Of) -> Vec<String> {
    if of == Of::Rds {
        return frames::CASES.map(str::to_string).to_vec();
    }
    let codec = CODEC.iter().map(|name| name.to_string());
    let engine = ENGINE.iter().flat_map(|name| RECORDS.map(|records| key(name, Some(records))));
    codec.chain(engine).collect()
}

fn key(name: &str, records: Option<u8>) -> String {
    records.map_or(name.to_string(), |records| format!("{name}:{records}"))
}

/// The case of this name. Only its own start is made, so that little is counted beside its calls.
pub fn case(sought: &str) -> Result<Case, String> {
    if let Some(name) = frames::CASES.into_iter().find(|name| *name == sought) {
        let (start, call) = frames::case(name)?;
        return Ok(Case { name, records: None, start, call, number: 0 });
    }
    if let Some(name) = CODEC.into_iter().find(|name| *name == sought) {
        let (start, call) = codec(name)?;
        return Ok(Case { name, records: None, start, call, number: 0 });
    }
    let engine_cases = ENGINE.into_iter().flat_map(|name| RECORDS.map(|records| (name, records)));
    let found = engine_cases.into_iter().find(|(name, records)| key(name, Some(*records)) == sought);
    let (name, records) = found.ok_or_else(|| format!("no case '{sought}': --list names them"))?;
    let (start, call) = engine(name, records)?;
    let number = if name == "request refused" { TABLE_FULL } else { 0 };
    Ok(Case { name, records: Some(records), start, call, number })
}

/// All cases, of WTP the codec's first.
pub fn all(of: Of) -> Result<Vec<Case>, String> {
    keys(of).iter().map(|key| case(key)).collect()
}

fn codec(name: &str) -> Result<(Buffers, Call), String> {
    Ok(match name {
        "read an Invoke" => read(pdus::invoke_with_items()),
        "read a Result" => read(pdus::result_with_items()),
        "read an Ack" => read(pdus::ack_with_items()),
        "write an Invoke" => write(pdus::invoke_with_items())?,
        "write a Result" => write(pdus::result_with_items())?,
        "write an Ack" => write(pdus::ack_with_items())?,
        "separate three PDUs" => separate()?,
        _ => join(),
    })
}

fn read(pdu: Vec<u8>) -> (Buffers, Call) {
    (start::codec(ffi::FIELDS), Call::Read { pdu })
}

/// Writes what the library reads.
fn write(pdu: Vec<u8>) -> Result<(Buffers, Call), String> {
    let mut lent = start::codec(ffi::FIELDS);
    start::accepted("read", Library.read(&mut lent, &pdu))?;
    Ok((start::codec(0), Call::Write { fields: lent.words, bytes: pdu }))
}

fn join() -> (Buffers, Call) {
    let three = [pdus::ack(5), pdus::result(6), pdus::invoke_with_items()];
    let lengths = three.iter().map(|pdu| pdu.len() as u64).collect();
    (start::codec(0), Call::Join { bytes: three.concat(), lengths })
}

/// Separates what the library joins; the last of the three is asked for.
fn separate() -> Result<(Buffers, Call), String> {
    let (mut lent, call) = join();
    start::accepted("join", call.make(&Library, &mut lent))?;
    let length = lent.answer.first().map_or(0, |length| *length as usize);
    let datagram = lent.out.into_iter().take(length).collect();
    Ok((start::codec(ffi::PART), Call::Separate { datagram, place: 2 }))
}

fn engine(name: &str, records: u8) -> Result<(Buffers, Call), String> {
    let size = u64::from(records);
    let last = records - 1;
    let receive = |pdu| Call::Receive { now: NOW, pdu };
    let request = Call::Request { now: NOW, class: 2, data: pdus::data() };
    let answer = Call::Answer { now: NOW, of: Named { role: 0, tid: last.into() }, exit: vec![0xAA, 0xBB] };
    let result = Call::Result { now: NOW, of: Named { role: 1, tid: size }, data: pdus::data() };
    Ok(match name {
        "request" => (start::initiators(size, last)?, request),
        "request refused" => (start::initiators(size, records)?, request),
        "receive an Invoke" => (start::responders(size, last)?, receive(pdus::invoke(records))),
        "receive an unknown item" => (start::responders(size, last)?, receive(pdus::invoke_with_unknown_item(records))),
        "receive an Ack" => (start::initiators(size, records)?, receive(pdus::ack(last))),
        "receive a Result" => (start::initiators(size, records)?, receive(pdus::result(last))),
        "answer" => (start::last_has_its_result(records, &pdus::result(last))?, answer),
        "answer, unknown item" => (start::last_has_its_result(records, &pdus::result_with_unknown_item(last))?, answer),
        "result" => (start::responders(size, records)?, result),
        "timer, none due" => (start::initiators(size, records)?, Call::Timer { now: NOW }),
        "timer that fires" => (start::last_due_first(records)?, Call::Timer { now: DUE }),
        "tell the next deadline" => (start::last_due_first(records)?, Call::Deadline),
        _ => (start::last_due_first(records)?, Call::Fire { now: DUE, of: Named { role: 0, tid: last.into() } }),
    })
}

#[cfg(test)]
mod tests {
    use super::*;

    /// What the answer's first four words say: whether something is sent, indications, the TID given, whether a record was fired.
    fn said(case: &Case) -> (bool, u64, u64, u64) {
        let mut lent = case.start.clone();
        assert_eq!(case.call.make(&Library, &mut lent), case.number, "{}", case.key());
        (lent.answer[0] > 0, lent.answer[1], lent.answer[2], lent.answer[3])
    }

    #[test]
    fn each_call_of_the_engine_does_what_its_name_says() {
        for case in all(Of::Wtp).unwrap().iter().filter(|case| case.records.is_some()) {
            let last = u64::from(case.records.unwrap()) - 1;
            let expected = match case.name {
                "request" => (true, 0, last, 0),
                "receive an Invoke" | "receive an unknown item" | "receive an Ack" => (false, 1, 0, 0),
                "receive a Result" => (false, 2, 0, 0),
                "answer" | "answer, unknown item" | "result" => (true, 0, 0, 0),
                "timer, none due" => (false, 0, 0, 0),
                "timer that fires" | "fire a record" => (true, 0, 0, 1),
                // A refusal, and a call without an answer, leave the answer of the request before it.
                "request refused" | "tell the next deadline" => (true, 0, last, 0),
                other => panic!("no expectation for {other}"),
            };
            assert_eq!(said(case), expected, "{}", case.key());
        }
    }

    #[test]
    fn both_sides_agree_in_every_case() {
        for case in all(Of::Wtp).unwrap().into_iter().chain(all(Of::Rds).unwrap()) {
            case.agrees().unwrap();
        }
    }

    #[test]
    fn a_name_that_is_no_case_is_said() {
        for wrong in ["", "request", "request:2", "read an Invoke:1", "timer"] {
            assert!(case(wrong).map(|_| ()).unwrap_err().contains(wrong));
        }
    }

    #[test]
    fn every_case_is_found_by_its_name() {
        for of in [Of::Wtp, Of::Rds] {
            assert_eq!(all(of).unwrap().iter().map(Case::key).collect::<Vec<_>>(), keys(of));
        }
    }
}
