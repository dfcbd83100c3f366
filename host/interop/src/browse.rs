//! A conversation with a WAP gateway, and what must hold in it.

use crate::conversation::{Conversation, Seen};
use crate::wsp;
use kit::say;
use link::round::GATEWAY;
use std::time::Duration;
use wtp::{Abort, Name, Role, Shown};

const FIRST_TID: u16 = 1_000;
/// Lower than those in use before: a gateway would verify it, and all after it, if the first Invoke hadn't TIDnew.
const OLDER_TID: u16 = 900;
/// The flag of an Invoke's fourth octet.
const TIDNEW: u8 = 0x20;
const SOON: Duration = Duration::from_secs(5);
/// Longer than the slow page takes.
const LATE: Duration = Duration::from_secs(14);
const ABORT_OF_WRONG_VERSION: [u8; 4] = [0x20, 0x90, 0x00, 0x06];

/// Counts cases as they are checked.
#[derive(Debug, Default, PartialEq, Eq)]
pub struct Count {
    pub passed: u32,
    pub failed: u32,
}

/// What is asked of the gateway.
pub struct Wanted<'a> {
    pub gateway: &'a str,
    /// Where /text and /slow are served.
    pub base: &'a str,
    pub text: &'a str,
}

struct Browser<'a> {
    wanted: &'a Wanted<'a>,
    talk: Conversation,
    count: Count,
}

/// Has the conversation and counts its cases; where it can't go on, that is one that failed.
pub fn browse(wanted: &Wanted) -> Result<Count, String> {
    let talk = Conversation::with(wanted.gateway, FIRST_TID)?;
    let mut browser = Browser { wanted, talk, count: Count::default() };
    if let Err(why) = browser.converse() {
        browser.check(&why, false);
    }
    Ok(browser.count)
}

impl Browser<'_> {
    fn converse(&mut self) -> Result<(), String> {
        let session = self.connect()?;
        self.get_a_page()?;
        self.get_a_page_that_is_missing()?;
        self.get_a_slow_page()?;
        self.verify_an_older_tid()?;
        self.abort_a_request()?;
        self.send_what_matches_nothing()?;
        self.disconnect(session)
    }

    fn connect(&mut self) -> Result<u32, String> {
        say::out("Connect");
        let (_, shown) = self.ask(&wsp::connect(), SOON)?;
        self.check("Connect got a result with data", result(&shown).is_some());
        self.check("no abort is shown", !aborted(&shown));
        let session = result(&shown).and_then(wsp::connect_reply);
        self.check("the result is a ConnectReply", session.is_some());
        self.check_acknowledged();
        session.ok_or_else(|| "without a session there is no more to ask".to_string())
    }

    fn get_a_page(&mut self) -> Result<(), String> {
        say::out("Get /text");
        let (_, shown) = self.get("/text", SOON)?;
        self.check_text(&shown);
        self.check_acknowledged();
        Ok(())
    }

    fn get_a_page_that_is_missing(&mut self) -> Result<(), String> {
        say::out("Get /missing");
        let (_, shown) = self.get("/missing", SOON)?;
        let status = result(&shown).and_then(wsp::reply).map(|reply| reply.status);
        self.check("a page that isn't there is a result with its own status", status == Some(wsp::NOT_FOUND));
        self.check("and no abort", !aborted(&shown));
        self.check_acknowledged();
        Ok(())
    }

    fn get_a_slow_page(&mut self) -> Result<(), String> {
        say::out("Get /slow");
        let (name, shown) = self.get("/slow", LATE)?;
        let pdus = self.talk.take_seen();
        let held_on = pdus.iter().any(|seen| theirs(seen, &[0x18], name) || theirs(seen, &[0x19], name));
        self.check("the gateway sent a hold-on Ack", held_on);
        let confirmed = matches!(shown.first(), Some(Shown::Confirmation { .. }));
        self.check("the hold-on Ack is shown as a confirmation, before the result", confirmed && shown.len() == 2);
        self.check_text(&shown);
        Ok(())
    }

    fn verify_an_older_tid(&mut self) -> Result<(), String> {
        say::out("Get /text with an older TID, as after a restart");
        self.talk.start_anew(OLDER_TID)?;
        let (name, shown) = self.get("/text", SOON)?;
        let pdus = self.talk.take_seen();
        self.check("its Invoke carries TIDnew", pdus.iter().any(|seen| ours(seen, &[0x0E], name) && has_tidnew(&seen.pdu)));
        self.check("the gateway asked for verification of the TID (TIDve)", verified(&pdus, name));
        self.check("it was given one TIDok", pdus.iter().filter(|seen| ours(seen, &[0x1C], name)).count() == 1);
        self.check_text(&shown);
        let (name, shown) = self.get("/text", SOON)?;
        let pdus = self.talk.take_seen();
        self.check("the next Invoke is without TIDnew", !pdus.iter().any(|seen| seen.ours && has_tidnew(&seen.pdu)));
        self.check("and it isn't verified any more", !verified(&pdus, name));
        self.check_text(&shown);
        Ok(())
    }

    fn abort_a_request(&mut self) -> Result<(), String> {
        say::out("Get /slow, aborted");
        self.talk.start_anew(2_000)?;
        let name = self.talk.request(2, &wsp::get(&self.url("/slow")))?;
        let before = self.talk.outcome(name, Duration::from_secs(1))?;
        self.check("nothing is shown of a request that waits", before.is_empty());
        self.talk.abort(name, wsp::USER_REQUEST)?;
        let sent = self.saw(|seen| ours(seen, &[0x21], name));
        self.check("an Abort of the user was sent", sent);
        let after = self.talk.outcome(name, LATE)?;
        let silent = after.is_empty() && !self.saw(|seen| !seen.ours);
        self.check("after it the gateway sends nothing more, and nothing is shown", silent);
        let (_, shown) = self.get("/text", SOON)?;
        self.check_text(&shown);
        self.talk.take_seen();
        Ok(())
    }

    fn send_what_matches_nothing(&mut self) -> Result<(), String> {
        say::out("PDUs that match nothing, and one of another version");
        let nobody = Name { role: Role::Initiator, peer: GATEWAY, tid: 4_096 };
        for pdu in [[0x1C, 0x10, 0x00], [0x18, 0x10, 0x00]] {
            self.talk.send_by_hand(&pdu)?;
        }
        self.talk.outcome(nobody, Duration::from_secs(1))?;
        let answered = self.saw(|seen| !seen.ours);
        self.check("TIDok and Ack without a transaction are ignored", !answered);
        self.talk.send_by_hand(&[0x0E, 0x10, 0x00, 0x42])?;
        self.talk.outcome(nobody, Duration::from_secs(1))?;
        let refused = self.saw(|seen| !seen.ours && seen.pdu == ABORT_OF_WRONG_VERSION);
        self.check("an Invoke of another version gets Abort WTPVERSIONONE", refused);
        let (_, shown) = self.get("/text", SOON)?;
        self.check_text(&shown);
        self.talk.take_seen();
        Ok(())
    }

    fn disconnect(&mut self, session: u32) -> Result<(), String> {
        say::out("Disconnect (class 0), then Get /text without a session");
        let name = self.talk.request(0, &wsp::disconnect(session))?;
        let shown = self.talk.outcome(name, Duration::from_secs(1))?;
        self.check("class 0 is sent and shows nothing", shown.is_empty());
        let (_, shown) = self.get("/text", SOON)?;
        let by_user = |shown: &Shown| matches!(shown, Shown::Abort { by: Abort::User(wsp::DISCONNECTED), .. });
        self.check("the gateway's abort is shown as an abort of the user, with its reason", shown.iter().any(by_user));
        let no_result = |shown: &Shown| !matches!(shown, Shown::Result { .. } | Shown::EmptyResult { .. });
        self.check("and not as a result", shown.iter().all(no_result));
        Ok(())
    }

    fn get(&mut self, path: &str, limit: Duration) -> Result<(Name, Vec<Shown>), String> {
        let data = wsp::get(&self.url(path));
        self.ask(&data, limit)
    }

    /// Requests class 2 and answers the result that comes.
    fn ask(&mut self, data: &[u8], limit: Duration) -> Result<(Name, Vec<Shown>), String> {
        self.talk.take_seen();
        let name = self.talk.request(2, data)?;
        let shown = self.talk.outcome(name, limit)?;
        if shown.iter().any(|shown| matches!(shown, Shown::Result { .. } | Shown::EmptyResult { .. })) {
            self.talk.answer(name)?;
        }
        Ok((name, shown))
    }

    fn url(&self, path: &str) -> String {
        format!("{}{path}", self.wanted.base)
    }

    /// Whether such a PDU was on the air since the last request.
    fn saw(&mut self, is: impl Fn(&Seen) -> bool) -> bool {
        self.talk.take_seen().iter().any(is)
    }

    fn check(&mut self, case: &str, good: bool) {
        say::out(&format!("{}: {case}", if good { "ok" } else { "FAILED" }));
        let counter = if good { &mut self.count.passed } else { &mut self.count.failed };
        *counter = counter.saturating_add(1);
    }

    fn check_text(&mut self, shown: &[Shown]) {
        let reply = result(shown).and_then(wsp::reply);
        self.check("the reply's status is 20, OK", reply.as_ref().map(|reply| reply.status) == Some(wsp::OK));
        let same = reply.map_or(false, |reply| reply.body == self.wanted.text.as_bytes());
        self.check("the reply has the text that was served", same);
    }

    fn check_acknowledged(&mut self) {
        let acknowledged = self.saw(|seen| seen.ours && seen.pdu.first() == Some(&0x18));
        self.check("the result was acknowledged", acknowledged);
    }
}

/// The data of the result among what was shown.
fn result(shown: &[Shown]) -> Option<&[u8]> {
    shown.iter().find_map(|shown| match shown {
        Shown::Result { data, .. } => Some(&**data),
        _ => None,
    })
}

fn aborted(shown: &[Shown]) -> bool {
    shown.iter().any(|shown| matches!(shown, Shown::Abort { .. }))
}

fn verified(pdus: &[Seen], name: Name) -> bool {
    pdus.iter().any(|seen| theirs(seen, &[0x1C, 0x1D], name))
}

/// Of an Invoke.
fn has_tidnew(pdu: &[u8]) -> bool {
    matches!(pdu, [0x0E | 0x0F, _, _, fourth, ..] if fourth & TIDNEW != 0)
}

fn ours(seen: &Seen, first: &[u8], name: Name) -> bool {
    seen.ours && begins(&seen.pdu, first, name.tid)
}

fn theirs(seen: &Seen, first: &[u8], name: Name) -> bool {
    !seen.ours && begins(&seen.pdu, first, name.tid | 0x8000)
}

fn begins(pdu: &[u8], first: &[u8], tid: u16) -> bool {
    matches!(pdu, [octet, high, low, ..] if first.contains(octet) && u16::from_be_bytes([*high, *low]) == tid)
}
