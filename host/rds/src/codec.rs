//! Reading and writing of frames, and a datagram into a UI frame and out again.

use crate::ffi;
use crate::frame::{Frame, Ports, Side};
use crate::refused::{accepted, Refused};
use crate::said::Said;
use crate::told::{flag, part, small, Read};
use crate::word;

#[derive(Debug, Clone, Copy, PartialEq, Eq)]
pub enum Kind {
    I,
    S,
    Ui,
    U,
}

/// A frame that was judged whole: what a modem's driver has to know of it.
#[derive(Debug, Clone, Copy, PartialEq, Eq)]
pub struct Taken<'a> {
    pub kind: Kind,
    /// The information of I and UI, else none.
    pub datagram: &'a [u8],
    pub ports: Option<Ports>,
    /// N(S) of I, N(U) of UI, else 0.
    pub number: u8,
}

/// A UI frame, and the number of the next.
#[derive(Debug, Clone, PartialEq, Eq)]
pub struct Put {
    pub frame: Vec<u8>,
    pub next: u8,
}

/// Reads a frame that this side sent.
pub fn read(frame: &[u8], from: Side) -> Result<Frame<'_>, Refused> {
    let mut words = [0; ffi::FIELDS];
    accepted(ffi::read(frame, from.flag(), &mut words))?;
    Read { words: &words, octets: frame }.frame().ok_or(Refused::Unreadable)
}

/// Writes a frame that this side sends.
pub fn write(frame: &Frame, from: Side) -> Result<Vec<u8>, Refused> {
    let said = Said::of(frame);
    let (mut out, mut answer) = ([0; ffi::OUTPUT], [0; ffi::ANSWER]);
    accepted(ffi::write(&said.words, &said.octets, from.flag(), &mut out, &mut answer))?;
    sent(&out, &answer)
}

/// Judges a frame that this side sent, and tells its datagram, its ports and its number.
pub fn take(frame: &[u8], from: Side) -> Result<Taken<'_>, Refused> {
    let mut words = [0; ffi::PART];
    accepted(ffi::take(frame, from.flag(), &mut words))?;
    taken(&words, frame).ok_or(Refused::Unreadable)
}

fn taken<'a>(words: &[u64; ffi::PART], frame: &'a [u8]) -> Option<Taken<'a>> {
    let [kind, start, length, ads, source, destination, number, _] = *words;
    let kind = match kind {
        word::I => Kind::I,
        word::S => Kind::S,
        word::UI => Kind::Ui,
        word::U => Kind::U,
        _ => return None,
    };
    let ports = Ports { source: small(source)?, destination: small(destination)? };
    Some(Taken { kind, datagram: part(frame, start, length)?, ports: flag(ads)?.then_some(ports), number: small(number)? })
}

/// Puts a datagram into the UI frame of this number.
pub fn put(datagram: &[u8], ports: Option<Ports>, number: u8) -> Result<Put, Refused> {
    let told = ports.unwrap_or(Ports { source: 0, destination: 0 });
    let asked = ffi::Sent {
        ports: ports.is_some().into(),
        source: told.source.into(),
        destination: told.destination.into(),
        number: number.into(),
    };
    let (mut out, mut answer) = ([0; ffi::OUTPUT], [0; ffi::ANSWER]);
    accepted(ffi::put(datagram, asked, &mut out, &mut answer))?;
    let [_, _, _, _, _, _, _, _, _, _, _, _, next, ..] = answer;
    Ok(Put { frame: sent(&out, &answer)?, next: small(next).ok_or(Refused::Unreadable)? })
}

/// The frame at the start of the output.
pub(crate) fn sent(out: &[u8], answer: &[u64; ffi::ANSWER]) -> Result<Vec<u8>, Refused> {
    let [length, ..] = *answer;
    part(out, 0, length).map(<[u8]>::to_vec).ok_or(Refused::Unreadable)
}

#[cfg(test)]
mod tests {
    use super::*;

    #[test]
    fn a_part_that_the_interface_does_not_describe_is_not_read() {
        for words in
            [[0; 8], [5, 0, 0, 0, 0, 0, 0, 0], [3, 1, 3, 0, 0, 0, 0, 0], [3, 0, 0, 2, 0, 0, 0, 0], [3, 0, 0, 1, 256, 0, 0, 0]]
        {
            assert_eq!(taken(&words, &[1, 2, 3]), None, "{words:?}");
        }
        assert!(taken(&[3, 1, 2, 1, 15, 15, 7, 0], &[1, 2, 3]).is_some());
    }
}
