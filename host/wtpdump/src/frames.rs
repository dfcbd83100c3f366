//! One frame of the Reliable Data Service in docs/RDS.md's words. What it says, and whether it is malformed, is the library's word.

use crate::hex::spaced;
use crate::words::{data, shortened, Length};
use rds::{Asked, Command, Content, Entry, Frame, List, Ports, Response, Side, Told};

/// The words for a frame, and its datagram where it has one; those of Err say that it is malformed.
pub fn frame(octets: &[u8], from: Side, length: Length) -> Result<(String, Option<&[u8]>), String> {
    let frame = rds::read(octets, from).map_err(|why| {
        let (shown, dots) = shortened(octets, length);
        format!("malformed (number {}) and dropped: {}{dots}", why.number(), spaced(shown)).trim_end_matches(": ").to_string()
    })?;
    let datagram = match frame.content {
        Content::I { information, .. } | Content::Ui { information, .. } => Some(information),
        _ => None,
    };
    Ok((words(&frame, length), datagram))
}

/// The side in words.
pub fn side(from: Side) -> &'static str {
    match from {
        Side::Ue => "the UE",
        Side::Network => "the network",
    }
}

fn words(frame: &Frame, length: Length) -> String {
    let content = match &frame.content {
        Content::I { told: what, ns, information } => format!("I, N(S) {ns}, {}, {}", told(what), counted(information)),
        Content::S(what) => format!("S, {}", told(what)),
        Content::Ui { number, information } => format!("UI, N(U) {number}, {}", counted(information)),
        Content::Command(what) => command(what, length),
        Content::Response(what) => response(what, length),
    };
    match frame.ports {
        Some(between) => format!("{content}, ports {}", ports(between)),
        None => content,
    }
}

fn told(Told { ask, nr, r }: &Told) -> String {
    format!("A {}, N(R) {nr}, R {r}", u8::from(*ask))
}

fn counted(information: &[u8]) -> String {
    match information.len() {
        1 => "a datagram of 1 octet".to_string(),
        count => format!("a datagram of {count} octets"),
    }
}

fn command(command: &Command, length: Length) -> String {
    match command {
        Command::Error => "ERROR command".to_string(),
        Command::Disconnect => "DISCONNECT command".to_string(),
        Command::SetAckMode(octets) => format!("SET_ACK_MODE command, {}", data(octets, length)),
        Command::SetParameters(octets) => format!("SET_PARAMETERS command, {}", data(octets, length)),
        Command::Reserve(what) => format!("MANAGE_PORT command, Reserve port {}", asked(what, length)),
        Command::ReserveWithFormat(what, offered) => {
            format!("MANAGE_PORT command, Reserve port and serialization format {}, {}", asked(what, length), formats(*offered))
        }
        Command::Release(what) => format!("MANAGE_PORT command, Release port {}", asked(what, length)),
        Command::Query { with_formats, requested } => {
            let which = requested.map_or(String::new(), |requested| format!(", requested: {}", bitmap(requested)));
            format!("MANAGE_PORT command, Query port{}{which}", and_formats(*with_formats))
        }
        Command::Notify(what) => format!("MANAGE_PORT command, Notify port{}", list(what, length)),
    }
}

fn response(response: &Response, length: Length) -> String {
    match response {
        Response::Error => "ERROR response".to_string(),
        Response::Accept(octets) => format!("ACCEPT response, {}", data(octets, length)),
        Response::SetParameters(octets) => format!("SET_PARAMETERS response, {}", data(octets, length)),
        Response::Reserve(status) => format!("MANAGE_PORT response, Reserve port: {status}"),
        Response::ReserveWithFormat(format, status) => {
            format!("MANAGE_PORT response, Reserve port and serialization format: {status}, {}", formats(*format))
        }
        Response::Release(status) => format!("MANAGE_PORT response, Release port: {status}"),
        Response::Query(what) => format!("MANAGE_PORT response, Query port{}", list(what, length)),
    }
}

fn asked(Asked { ports: between, application }: &Asked, length: Length) -> String {
    format!("{}, Application ID {}", ports(*between), data(application, length))
}

fn ports(Ports { source, destination }: Ports) -> String {
    format!("{source} to {destination}")
}

fn and_formats(with_formats: bool) -> &'static str {
    if with_formats {
        " and serialization format"
    } else {
        ""
    }
}

fn list(list: &List, length: Length) -> String {
    let entry = |Entry { asked: what, format }: &Entry| {
        let format = if list.with_formats { format!(", {}", formats(*format)) } else { String::new() };
        format!("; {}{format}", asked(what, length))
    };
    let entries: String = list.entries.iter().map(entry).collect();
    let not_available = list.not_available.map_or(String::new(), |ports| format!("; not available: {}", bitmap(ports)));
    format!("{}, entries {}{entries}{not_available}", and_formats(list.with_formats), list.entries.len())
}

fn formats(formats: u8) -> String {
    let named: Vec<_> =
        [(1, "CBOR"), (2, "JSON"), (4, "XML")].iter().filter(|(bit, _)| formats & bit != 0).map(|(_, name)| *name).collect();
    if named.is_empty() {
        "no format".to_string()
    } else {
        named.join(" ")
    }
}

fn bitmap(ports: u16) -> String {
    let named: Vec<_> = (0..16).filter(|port| ports >> port & 1 == 1).map(|port: u8| port.to_string()).collect();
    if named.is_empty() {
        "no port".to_string()
    } else {
        format!("ports {}", named.join(" "))
    }
}
