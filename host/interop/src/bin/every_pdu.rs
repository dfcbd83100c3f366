//! Prints every PDU that the engine can send, and then neighbours of them joined in one datagram: what is meant, the octets
//! in hex, and what tshark should show, between tabs.

#![deny(unsafe_code)]

use interop::{fields, joined_fields, Field, Sent};
use kit::say;
use std::process::ExitCode;
use wtp::codec::join;

fn main() -> ExitCode {
    match lines() {
        Ok(lines) => {
            say::out(&lines.join("\n"));
            ExitCode::SUCCESS
        }
        Err(why) => {
            say::err(&format!("every_pdu: {why}"));
            ExitCode::FAILURE
        }
    }
}

fn lines() -> Result<Vec<String>, String> {
    let sent = interop::every_pdu()?;
    let single = sent.iter().map(|sent| Ok(line(&sent.meant, &sent.pdu, &fields(&sent.pdu)?)));
    single.chain(sent.chunks(2).filter_map(joined)).collect()
}

/// The line of a pair, where it fits in one datagram.
fn joined(pair: &[Sent]) -> Option<Result<String, String>> {
    let pdus: Vec<&[u8]> = pair.iter().map(|sent| &*sent.pdu).collect();
    let datagram = join(&pdus).ok()?;
    let meant: Vec<&str> = pair.iter().map(|sent| &*sent.meant).collect();
    Some(joined_fields(&pdus).map(|fields| line(&format!("joined: {}", meant.join(" + ")), &datagram, &fields)))
}

fn line(meant: &str, octets: &[u8], fields: &[Field]) -> String {
    let fields: Vec<String> = fields.iter().map(|(name, value)| format!("{name}={value}")).collect();
    format!("{meant}\t{}\t{}", wtpdump::spaced(octets), fields.join(" "))
}
