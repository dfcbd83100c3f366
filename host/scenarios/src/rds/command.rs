//! A line as a command.

use crate::command::values;
use crate::words::Words;
use rds::ffi::Sent;

pub enum Command {
    /// A title or an empty line.
    Nothing,
    /// A frame, read, taken and written back.
    Frame {
        from_network: u64,
        octets: Vec<u8>,
    },
    /// Writes the frame of these words, the others 0, whose parts lie in the octets.
    Write {
        from_network: u64,
        words: Vec<(usize, u64)>,
        octets: Vec<u8>,
    },
    Put {
        sent: Sent,
        datagram: Vec<u8>,
    },
    Fresh {
        network: u64,
        formats: u64,
    },
    Reserve {
        own: u64,
        peers: u64,
        with_format: u64,
        application: Vec<u8>,
    },
    Release {
        own: u64,
    },
    Again,
    Abandon,
    Receive(Vec<u8>),
    Port {
        port: u64,
    },
}

/// The command of a line, or what is wrong with it.
pub fn command(line: &str) -> Result<Command, String> {
    let mut words = Words::of(line);
    let command = match words.next() {
        None => Command::Nothing,
        Some(title) if title.starts_with('#') => return Ok(Command::Nothing),
        Some("u") => Command::Frame { from_network: 0, octets: words.last_octets()? },
        Some("n") => Command::Frame { from_network: 1, octets: words.last_octets()? },
        Some("w") => write(&mut words)?,
        Some("p") => put(&mut words)?,
        Some("f") => Command::Fresh { network: words.number("NETWORK")?, formats: words.number("FORMATS")? },
        Some("r") => reserve(&mut words)?,
        Some("l") => Command::Release { own: words.number("OWN")? },
        Some("a") => Command::Again,
        Some("d") => Command::Abandon,
        Some("v") => Command::Receive(words.last_octets()?),
        Some("q") => Command::Port { port: words.number("PORT")? },
        Some(name) => return Err(format!("there is no command {name:?}")),
    };
    words.finish()?;
    Ok(command)
}

fn write(words: &mut Words) -> Result<Command, String> {
    let from_network = match words.next() {
        Some("u") => 0,
        Some("n") => 1,
        other => return Err(format!("SIDE can't be {:?}", other.unwrap_or_default())),
    };
    Ok(Command::Write { from_network, words: values(words)?, octets: words.octets()? })
}

fn put(words: &mut Words) -> Result<Command, String> {
    let (ports, source) = (words.number("PORTS")?, words.number("SOURCE")?);
    let (destination, number) = (words.number("DESTINATION")?, words.number("NUMBER")?);
    Ok(Command::Put { sent: Sent { ports, source, destination, number }, datagram: words.octets()? })
}

fn reserve(words: &mut Words) -> Result<Command, String> {
    let (own, peers) = (words.number("OWN")?, words.number("PEERS")?);
    Ok(Command::Reserve { own, peers, with_format: words.number("FORMAT")?, application: words.octets()? })
}
