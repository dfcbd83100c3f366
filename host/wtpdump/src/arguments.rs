//! What wtpdump is asked for.

use crate::input::Source;
use crate::lines::SentBy;
use crate::words::Length;
use kit::args::{number, Given, Switches};
use rds::Side;
use std::ffi::OsString;

pub const HELP: &str = "\
wtpdump: WTP datagrams in words, one line a PDU

usage: wtpdump [switches] HEX...
       wtpdump [switches] FILE
       wtpdump [switches] -            (standard input, read to its end)

An argument of hex digits is one datagram: two digits an octet; spaces, colons and 0x are allowed.
Anything else is a file (write ./cafe for a file whose name is hex). What a file is, its content tells:
  pcap     microseconds or nanoseconds, either byte order
  pcapng   enhanced and simple packet blocks, either byte order: what tshark and Wireshark write
  text     one datagram a line in hex, # begins a comment, a comma another datagram:
           also what tshark -T fields -e udp.payload (or -e data) writes
A hexdump with offsets (tshark -x) isn't read: write a capture with tshark -w FILE.
In a capture: Ethernet (with VLAN tags), raw IP, Linux cooked v1 and v2, BSD loopback; IPv4 and IPv6; UDP.
Fragments of IP packets and frames that the capture cut short are named and passed over; what isn't UDP is passed over.

switches:
  --port N         of a capture only datagrams from or to UDP port N; may be repeated (default: all ports)
  --all            all octets of data (default: the first 32)
  --rds            each datagram is a frame of the Reliable Data Service: a line for it, and one for each PDU in it
  --sent-by SIDE   who sent the frames: ue, network, or of a capture the UDP port of the network (default: ue)
  --help           this text
  --               what follows is no switch

A line has the number of the argument, line or frame; in a capture the seconds since the first datagram and both ends;
which PDU of how many, where octet 0 begins the datagram; its octets in the datagram; and the PDU in words.
A malformed PDU has its D and the octet at which the rule fails: the first octet of an item that runs past the end, the end
where an octet is missing. A datagram that can't be separated has number 11 and the place. Octets are counted from 0.
A malformed frame has number 16, and no PDU is looked for in it.
Where there is more than one datagram, a last line counts them.

exit status: 0 good, malformed PDUs included; 1 something can't be read; 2 wrong arguments

example: wtpdump 0E000502 '00 03 18 80 05 04 20 80 06 08'
         wtpdump --rds --sent-by ue 4B350E000502
";

#[derive(Debug, Clone, PartialEq, Eq)]
pub struct Asked {
    pub source: Source,
    pub ports: Vec<u16>,
    pub length: Length,
    /// None: no frames.
    pub frames: Option<SentBy>,
}

/// None where help is asked for.
pub fn read(arguments: impl Iterator<Item = OsString>) -> Result<Option<Asked>, String> {
    let given = Given::of(arguments, &Switches { valued: &["--port", "--sent-by"], flags: &["--all", "--rds"] })?;
    if given.has("--help") {
        return Ok(None);
    }
    let port = |text| number("--port", text, 0..=u16::MAX);
    let ports = given.texts("--port").into_iter().map(port).collect::<Result<_, _>>()?;
    let length = if given.has("--all") { Length::All } else { Length::Short };
    let frames = frames(&given)?;
    match Source::of(&given.names) {
        Some(source) => Ok(Some(Asked { source, ports, length, frames })),
        None if given.names.is_empty() => Err("hex or a file is missing".to_string()),
        None => Err("either hex datagrams or one file; one of these arguments is no hex".to_string()),
    }
}

fn frames(given: &Given) -> Result<Option<SentBy>, String> {
    let by = match given.text("--sent-by")? {
        None | Some("ue") => SentBy::Side(Side::Ue),
        Some("network") => SentBy::Side(Side::Network),
        Some(port) => {
            let port = port.parse().map_err(|_| format!("--sent-by must be ue, network or a UDP port, not {port:?}"))?;
            SentBy::NetworkAt(port)
        }
    };
    match (given.has("--rds"), given.text("--sent-by")?) {
        (true, _) => Ok(Some(by)),
        (false, None) => Ok(None),
        (false, Some(_)) => Err("--sent-by is for frames: --rds is missing".to_string()),
    }
}

#[cfg(test)]
mod tests {
    use super::*;

    fn asked(arguments: &[&str]) -> Result<Option<Asked>, String> {
        read(arguments.iter().map(OsString::from))
    }

    #[test]
    fn switches_may_stand_anywhere() {
        let expected =
            Asked { source: Source::File("a.pcap".into()), ports: vec![9201, 9203], length: Length::All, frames: None };
        assert_eq!(asked(&["--port", "9201", "a.pcap", "--port=9203", "--all"]), Ok(Some(expected)));
    }

    #[test]
    fn frames_have_a_side_or_a_port() {
        let by = |arguments: &[&str]| asked(&[&["--rds", "0E"], arguments].concat()).unwrap().unwrap().frames.unwrap();
        assert_eq!((by(&[]), by(&["--sent-by", "ue"])), (SentBy::Side(Side::Ue), SentBy::Side(Side::Ue)));
        assert_eq!(by(&["--sent-by=network"]), SentBy::Side(Side::Network));
        assert_eq!(by(&["--sent-by", "9201"]), SentBy::NetworkAt(9201));
    }

    #[test]
    fn help_is_given_whatever_else_is_asked() {
        assert_eq!(asked(&["a.pcap", "--help"]), Ok(None));
    }

    #[test]
    fn what_follows_two_dashes_is_no_switch() {
        let source = asked(&["--", "--all"]).unwrap().unwrap().source;
        assert_eq!(source, Source::File("--all".into()));
    }

    #[test]
    fn wrong_arguments_are_named() {
        for (arguments, word) in [
            (&["--port"][..], "--port"),
            (&["--port", "65536", "0E"], "65536"),
            (&["--port=x", "0E"], "x"),
            (&["--wide", "0E"], "--wide"),
            (&[], "missing"),
            (&["0E", "a.pcap"], "one file"),
            (&["--sent-by", "ue", "0E"], "--rds is missing"),
            (&["--rds", "--sent-by", "UE", "0E"], "\"UE\""),
            (&["--rds", "--sent-by", "65536", "0E"], "65536"),
        ] {
            let wrong = asked(arguments).unwrap_err();
            assert!(wrong.contains(word), "{wrong}");
        }
    }
}
