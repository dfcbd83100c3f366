//! The words of a frame, taken apart. None where they aren't what the interface describes.

use crate::ffi;
use crate::frame::{action, m, Asked, Command, Content, Entry, Frame, List, Ports, Response, Status, Told};
use crate::word;

/// The words of a frame.
pub type Fields = [u64; ffi::FIELDS];

/// The words that were read, and the octets that their parts lie in.
pub(crate) struct Read<'a, 'w> {
    pub words: &'w Fields,
    pub octets: &'a [u8],
}

impl<'a> Read<'a, '_> {
    pub fn frame(&self) -> Option<Frame<'a>> {
        let ports = if flag(self.words[word::ADS])? { Some(self.ports(word::SOURCE)?) } else { None };
        let content = match self.words[word::KIND] {
            word::I => Content::I { told: self.told()?, ns: self.small(word::NS)?, information: self.information()? },
            word::S => Content::S(self.told()?),
            word::UI => Content::Ui { number: self.small(word::NU)?, information: self.information()? },
            word::U if flag(self.words[word::RESPONSE])? => Content::Response(self.response()?),
            word::U => Content::Command(self.command()?),
            _ => return None,
        };
        Some(Frame { ports, content })
    }

    fn command(&self) -> Option<Command<'a>> {
        Some(match self.words[word::M] {
            m::ERROR => Command::Error,
            m::DISCONNECT => Command::Disconnect,
            m::SET_ACK_MODE => Command::SetAckMode(self.information()?),
            m::SET_PARAMETERS => Command::SetParameters(self.information()?),
            m::MANAGE_PORT => match self.words[word::ACTION] {
                action::RESERVE => Command::Reserve(self.asked(word::BODY_SOURCE)?),
                action::RESERVE_WITH_FORMAT => {
                    Command::ReserveWithFormat(self.asked(word::BODY_SOURCE)?, self.small(word::FORMAT)?)
                }
                action::RELEASE => Command::Release(self.asked(word::BODY_SOURCE)?),
                action::QUERY => Command::Query { with_formats: false, requested: self.bitmap()? },
                action::QUERY_WITH_FORMATS => Command::Query { with_formats: true, requested: self.bitmap()? },
                action::NOTIFY => Command::Notify(self.list(false)?),
                action::NOTIFY_WITH_FORMATS => Command::Notify(self.list(true)?),
                _ => return None,
            },
            _ => return None,
        })
    }

    fn response(&self) -> Option<Response<'a>> {
        Some(match self.words[word::M] {
            m::ERROR => Response::Error,
            m::ACCEPT => Response::Accept(self.information()?),
            m::SET_PARAMETERS => Response::SetParameters(self.information()?),
            m::MANAGE_PORT => match self.words[word::ACTION] {
                action::RESERVE => Response::Reserve(self.status()?),
                action::RESERVE_WITH_FORMAT => Response::ReserveWithFormat(self.small(word::FORMAT)?, self.status()?),
                action::RELEASE => Response::Release(self.status()?),
                action::QUERY => Response::Query(self.list(false)?),
                action::QUERY_WITH_FORMATS => Response::Query(self.list(true)?),
                _ => return None,
            },
            _ => return None,
        })
    }

    fn told(&self) -> Option<Told> {
        Some(Told { ask: flag(self.words[word::A])?, nr: self.small(word::NR)?, r: self.small(word::R)? })
    }

    fn status(&self) -> Option<Status> {
        Status::of(self.words[word::STATUS])
    }

    fn information(&self) -> Option<&'a [u8]> {
        part(self.octets, self.words[word::START], self.words[word::LENGTH])
    }

    fn bitmap(&self) -> Option<Option<u16>> {
        let ports = u16::try_from(self.words[word::BITMAP]).ok()?;
        Some(flag(self.words[word::BITMAP_THERE])?.then_some(ports))
    }

    fn list(&self, with_formats: bool) -> Option<List<'a>> {
        let count = usize::try_from(self.words[word::ENTRIES]).ok()?;
        let starts = (word::FIRST_ENTRY..word::FIRST_ENTRY.checked_add(count.checked_mul(word::ENTRY)?)?).step_by(word::ENTRY);
        let entries = starts.map(|at| Some(Entry { asked: self.asked(at)?, format: self.small(at.checked_add(4)?)? }));
        Some(List { with_formats, entries: entries.collect::<Option<_>>()?, not_available: self.bitmap()? })
    }

    /// Ports and an Application ID, whose four words begin at this place.
    fn asked(&self, at: usize) -> Option<Asked<'a>> {
        match self.words.get(at..)? {
            [_, _, start, length, ..] => Some(Asked { ports: self.ports(at)?, application: part(self.octets, *start, *length)? }),
            _ => None,
        }
    }

    fn ports(&self, at: usize) -> Option<Ports> {
        Some(Ports { source: self.small(at)?, destination: self.small(at.checked_add(1)?)? })
    }

    fn small(&self, at: usize) -> Option<u8> {
        small(*self.words.get(at)?)
    }
}

/// The part of these octets that begins at `start`, where it lies in them.
pub(crate) fn part(octets: &[u8], start: u64, length: u64) -> Option<&[u8]> {
    let start = usize::try_from(start).ok()?;
    let end = start.checked_add(usize::try_from(length).ok()?)?;
    octets.get(start..end)
}

pub(crate) fn flag(word: u64) -> Option<bool> {
    match word {
        0 => Some(false),
        1 => Some(true),
        _ => None,
    }
}

pub(crate) fn small(word: u64) -> Option<u8> {
    u8::try_from(word).ok()
}

#[cfg(test)]
mod tests {
    use super::*;

    fn read(words: &[(usize, u64)]) -> Option<Frame<'static>> {
        let mut fields = [0; ffi::FIELDS];
        words.iter().for_each(|(place, value)| fields[*place] = *value);
        Read { words: &fields, octets: &[1, 2, 3] }.frame()
    }

    #[test]
    fn what_the_interface_does_not_describe_is_not_read() {
        let manage = [(word::KIND, word::U), (word::M, m::MANAGE_PORT)];
        let managed = |more: &[(usize, u64)]| read(&[&manage[..], more].concat());
        assert_eq!(read(&[]), None, "no kind");
        assert_eq!(read(&[(word::KIND, word::UI), (word::ADS, 2)]), None, "a flag of 2");
        assert_eq!(read(&[(word::KIND, word::UI), (word::START, 1), (word::LENGTH, 3)]), None, "a part past the end");
        assert_eq!(read(&[(word::KIND, word::UI), (word::START, u64::MAX), (word::LENGTH, 1)]), None, "a sum that wraps");
        assert_eq!(read(&[(word::KIND, word::UI), (word::NU, 256)]), None, "a number that is no octet");
        assert_eq!(read(&[(word::KIND, word::U), (word::M, 2)]), None, "no M");
        assert_eq!(managed(&[]), None, "no Action");
        assert_eq!(managed(&[(word::ACTION, 1), (word::RESPONSE, 1), (word::STATUS, 4)]), None, "a reserved Status");
        assert_eq!(managed(&[(word::ACTION, 4), (word::ENTRIES, 16)]), None, "more entries than there are words");
        assert_eq!(managed(&[(word::ACTION, 4), (word::ENTRIES, u64::MAX)]), None, "a product that wraps");
        assert!(managed(&[(word::ACTION, 4), (word::ENTRIES, 15)]).is_some());
    }
}
