//! The writer's call: the frame that words say. Each word that the frame has is taken, in its range; those left must be 0.

use crate::frame::{has_formats, Body, Entry, Frame, Kind, Managed, Part, Ports};
use crate::octets::octets;
use crate::parse::parse;
use crate::words::entry_at;
use crate::{Said, ANSWER, FIELDS, MALFORMED, OUTPUT, WRONG_SIZE};

pub fn write(fields: &[u64], bytes: &[u8], from_network: u64, out: &mut [u8], answer: &mut [u64]) -> Said {
    if fields.len() < FIELDS || out.len() < OUTPUT || answer.len() < ANSWER {
        return Said::refused(WRONG_SIZE);
    }
    let mut saying = Saying { left: fields[..FIELDS].to_vec(), bytes };
    let frame = match saying.frame().filter(|_| saying.left.iter().all(|word| *word == 0)) {
        Some(frame) => frame,
        None => return Said::refused(MALFORMED),
    };
    let octets = octets(&frame, from_network != 0, bytes);
    if let Err(why) = parse(&octets, from_network != 0) {
        return Said::malformed(why);
    }
    out[..octets.len()].copy_from_slice(&octets);
    answer[..ANSWER].fill(0);
    answer[0] = octets.len() as u64;
    Said::accepted(None)
}

struct Saying<'a> {
    /// The words that weren't taken yet; a taken one is 0.
    left: Vec<u64>,
    bytes: &'a [u8],
}

impl Saying<'_> {
    fn word(&mut self, at: usize) -> u64 {
        std::mem::take(&mut self.left[at])
    }

    fn below(&mut self, at: usize, bound: u64) -> Option<u8> {
        let word = self.word(at);
        (word < bound).then_some(word as u8)
    }

    fn flag(&mut self, at: usize) -> Option<bool> {
        self.below(at, 2).map(|flag| flag == 1)
    }

    fn ports(&mut self, at: usize) -> Option<Ports> {
        Some(Ports { source: self.below(at, 16)?, destination: self.below(at + 1, 16)? })
    }

    fn part(&mut self, at: usize) -> Option<Part> {
        let (start, length) = (u128::from(self.word(at)), u128::from(self.word(at + 1)));
        (start + length <= self.bytes.len() as u128).then_some(Part { start: start as usize, length: length as usize })
    }

    fn application(&mut self, at: usize) -> Option<Part> {
        let part = self.part(at)?;
        let octets = &self.bytes[part.start..part.start + part.length];
        octets.get(16).filter(|length| part.length == 17 + usize::from(**length)).map(|_| part)
    }

    fn frame(&mut self) -> Option<Frame> {
        let ports = if self.flag(1)? { Some(self.ports(2)?) } else { None };
        let kind = match self.word(0) {
            1 => Kind::I {
                a: self.flag(4)?,
                ns: self.below(5, 8)?,
                nr: self.below(6, 8)?,
                r: self.below(7, 8)?,
                information: self.part(11)?,
            },
            2 => Kind::S { a: self.flag(4)?, nr: self.below(6, 8)?, r: self.below(7, 8)? },
            3 => Kind::Ui { nu: self.below(8, 8)?, information: self.part(11)? },
            4 => {
                let (m, response) = (self.word(9), self.flag(10)?);
                Kind::U { response, body: self.body(m, response)? }
            }
            _ => return None,
        };
        Some(Frame { ports, kind })
    }

    fn body(&mut self, m: u64, response: bool) -> Option<Body> {
        Some(match m {
            1 => Body::Error,
            4 => Body::Disconnect,
            6 => Body::Accept(self.part(11)?),
            7 => Body::SetAckMode(self.part(11)?),
            10 => {
                let action = self.below(13, 16)?;
                Body::ManagePort { action, managed: self.managed(action, response)? }
            }
            11 => Body::SetParameters(self.part(11)?),
            _ => return None,
        })
    }

    fn managed(&mut self, action: u8, response: bool) -> Option<Managed> {
        Some(match (action, response) {
            (1 | 2 | 5, false) => {
                let (ports, application) = (self.ports(15)?, self.application(17)?);
                Managed::Command { ports, application, format: self.format(19, action == 5)? }
            }
            (1 | 2 | 5, true) => Managed::Response { format: self.format(19, action == 5)?, status: self.below(14, 256)? },
            (3 | 6, false) => Managed::Query { bitmap: self.bitmap()? },
            (3 | 6, true) | (4 | 7, false) => {
                let count = self.below(22, 16)?;
                let entries = (0..count.into()).map(|k| self.entry(entry_at(k), has_formats(action)));
                Managed::List { entries: entries.collect::<Option<Vec<_>>>()?, bitmap: self.bitmap()? }
            }
            _ => return None,
        })
    }

    fn format(&mut self, at: usize, is_there: bool) -> Option<Option<u8>> {
        if is_there {
            self.below(at, 8).map(Some)
        } else {
            Some(None)
        }
    }

    fn entry(&mut self, at: usize, formats: bool) -> Option<Entry> {
        Some(Entry { ports: self.ports(at)?, application: self.application(at + 2)?, format: self.format(at + 4, formats)? })
    }

    /// A bitmap that isn't there leaves its word, which must be 0.
    fn bitmap(&mut self) -> Option<Option<u16>> {
        if !self.flag(20)? {
            return Some(None);
        }
        let word = self.word(21);
        (word < 65_536 && word % 2 == 0).then_some(Some(word as u16))
    }
}
