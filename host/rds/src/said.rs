//! A frame as the words and octets that it is written from.

use crate::ffi;
use crate::frame::{action, m, Asked, Command, Content, Frame, List, Ports, Response, Status, Told};
use crate::told::Fields;
use crate::word;

/// The words of a frame to be written, and the octets that its parts lie in.
pub(crate) struct Said {
    pub words: Fields,
    pub octets: Vec<u8>,
}

impl Said {
    pub fn of(frame: &Frame) -> Said {
        let mut said = Said { words: [0; ffi::FIELDS], octets: Vec::new() };
        if let Some(ports) = frame.ports {
            said.set(word::ADS, 1);
            said.ports(word::SOURCE, ports);
        }
        match &frame.content {
            Content::I { told, ns, information } => {
                said.told(word::I, *told);
                said.set(word::NS, (*ns).into());
                said.part(word::START, information);
            }
            Content::S(told) => said.told(word::S, *told),
            Content::Ui { number, information } => {
                said.set(word::KIND, word::UI);
                said.set(word::NU, (*number).into());
                said.part(word::START, information);
            }
            Content::Command(command) => said.command(command),
            Content::Response(response) => said.response(response),
        }
        said
    }

    fn command(&mut self, command: &Command) {
        match command {
            Command::Error => self.u(m::ERROR, 0),
            Command::Disconnect => self.u(m::DISCONNECT, 0),
            Command::SetAckMode(information) => self.informed(m::SET_ACK_MODE, 0, information),
            Command::SetParameters(items) => self.informed(m::SET_PARAMETERS, 0, items),
            Command::Reserve(asked) => self.asks(action::RESERVE, asked),
            Command::ReserveWithFormat(asked, formats) => {
                self.asks(action::RESERVE_WITH_FORMAT, asked);
                self.set(word::FORMAT, (*formats).into());
            }
            Command::Release(asked) => self.asks(action::RELEASE, asked),
            Command::Query { with_formats, requested } => {
                self.manages(if *with_formats { action::QUERY_WITH_FORMATS } else { action::QUERY }, 0);
                self.bitmap(*requested);
            }
            Command::Notify(list) => {
                self.manages(if list.with_formats { action::NOTIFY_WITH_FORMATS } else { action::NOTIFY }, 0);
                self.list(list);
            }
        }
    }

    fn response(&mut self, response: &Response) {
        match response {
            Response::Error => self.u(m::ERROR, 1),
            Response::Accept(information) => self.informed(m::ACCEPT, 1, information),
            Response::SetParameters(items) => self.informed(m::SET_PARAMETERS, 1, items),
            Response::Reserve(status) => self.answers(action::RESERVE, *status),
            Response::ReserveWithFormat(format, status) => {
                self.answers(action::RESERVE_WITH_FORMAT, *status);
                self.set(word::FORMAT, (*format).into());
            }
            Response::Release(status) => self.answers(action::RELEASE, *status),
            Response::Query(list) => {
                self.manages(if list.with_formats { action::QUERY_WITH_FORMATS } else { action::QUERY }, 1);
                self.list(list);
            }
        }
    }

    fn told(&mut self, kind: u64, told: Told) {
        self.set(word::KIND, kind);
        self.set(word::A, told.ask.into());
        self.set(word::NR, told.nr.into());
        self.set(word::R, told.r.into());
    }

    fn u(&mut self, m: u64, response: u64) {
        self.set(word::KIND, word::U);
        self.set(word::M, m);
        self.set(word::RESPONSE, response);
    }

    fn informed(&mut self, m: u64, response: u64, information: &[u8]) {
        self.u(m, response);
        self.part(word::START, information);
    }

    fn manages(&mut self, action: u64, response: u64) {
        self.u(m::MANAGE_PORT, response);
        self.set(word::ACTION, action);
    }

    fn asks(&mut self, action: u64, asked: &Asked) {
        self.manages(action, 0);
        self.asked(word::BODY_SOURCE, asked);
    }

    fn answers(&mut self, action: u64, status: Status) {
        self.manages(action, 1);
        let numbered = Status::ALL.iter().zip(0..).find(|(known, _)| **known == status);
        self.set(word::STATUS, numbered.map_or(u64::MAX, |(_, number)| number));
    }

    fn bitmap(&mut self, ports: Option<u16>) {
        self.set(word::BITMAP_THERE, ports.is_some().into());
        self.set(word::BITMAP, ports.unwrap_or(0).into());
    }

    /// The library refuses a list of more entries than a frame can have, whose words there is no place for.
    fn list(&mut self, list: &List) {
        self.set(word::ENTRIES, list.entries.len().try_into().unwrap_or(u64::MAX));
        for (entry, at) in list.entries.iter().zip((word::FIRST_ENTRY..).step_by(word::ENTRY)) {
            self.asked(at, &entry.asked);
            self.set(at.saturating_add(4), entry.format.into());
        }
        self.bitmap(list.not_available);
    }

    fn asked(&mut self, at: usize, asked: &Asked) {
        self.ports(at, asked.ports);
        self.part(at.saturating_add(2), asked.application);
    }

    fn ports(&mut self, at: usize, ports: Ports) {
        self.set(at, ports.source.into());
        self.set(at.saturating_add(1), ports.destination.into());
    }

    /// A part, whose start and length are the two words from `at` on.
    fn part(&mut self, at: usize, octets: &[u8]) {
        self.set(at, self.octets.len().try_into().unwrap_or(u64::MAX));
        self.set(at.saturating_add(1), octets.len().try_into().unwrap_or(u64::MAX));
        self.octets.extend(octets);
    }

    fn set(&mut self, at: usize, value: u64) {
        self.words.iter_mut().skip(at).take(1).for_each(|word| *word = value);
    }
}
