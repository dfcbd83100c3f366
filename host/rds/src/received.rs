//! The words of what a frame brought to the book. None where they aren't what the interface describes.

use crate::ffi;
use crate::frame::Status;
use crate::told::{flag, part, small};

/// What a frame from the peer left to do.
#[derive(Debug, Clone, PartialEq, Eq)]
pub struct Received {
    /// The frame to send.
    pub sent: Option<Vec<u8>>,
    pub event: Event,
}

#[derive(Debug, Clone, PartialEq, Eq)]
pub enum Event {
    Nothing,
    /// The peer's command was answered.
    Answered {
        managed: Managed,
        status: Status,
        application: Vec<u8>,
    },
    /// Our command was answered: with a Status, or with ERROR.
    Settled {
        managed: Managed,
        status: Option<Status>,
    },
    /// A command that isn't built was answered with ERROR; its M, and its Action where it is a MANAGE_PORT.
    NotBuilt {
        m: u8,
        action: Option<u8>,
    },
}

/// What a command of either side was about.
#[derive(Debug, Clone, Copy, PartialEq, Eq)]
pub struct Managed {
    pub action: u8,
    pub own: u8,
    pub peers: u8,
    /// Of the response; 0 where it has none.
    pub format: u8,
    /// Whether a port was reserved, written again or freed.
    pub changed: bool,
}

const ERROR: u64 = 256;

pub(crate) fn received(answer: &[u64; ffi::ANSWER], out: &[u8], frame: &[u8]) -> Option<Received> {
    let [length, event, action, status, own, peers, format, changed, app_start, app_length, m, ..] = *answer;
    let managed = || {
        let (own, peers, format) = (small(own)?, small(peers)?, small(format)?);
        Some(Managed { action: small(action)?, own, peers, format, changed: flag(changed)? })
    };
    let sent = part(out, 0, length)?.to_vec();
    let event = match event {
        0 => Event::Nothing,
        1 => Event::Answered {
            managed: managed()?,
            status: Status::of(status)?,
            application: part(frame, app_start, app_length)?.to_vec(),
        },
        2 if status == ERROR => Event::Settled { managed: managed()?, status: None },
        2 => Event::Settled { managed: managed()?, status: Some(Status::of(status)?) },
        3 => Event::NotBuilt { m: small(m)?, action: if action == 0 { None } else { Some(small(action)?) } },
        _ => return None,
    };
    Some(Received { sent: (!sent.is_empty()).then_some(sent), event })
}

#[cfg(test)]
mod tests {
    use super::*;

    fn answer(words: &[(usize, u64)]) -> Option<Received> {
        let mut answer = [0; ffi::ANSWER];
        words.iter().for_each(|(place, word)| answer[*place] = *word);
        received(&answer, &[1, 2, 3], &[4, 5])
    }

    #[test]
    fn what_the_interface_does_not_describe_is_not_read() {
        assert_eq!(answer(&[(0, 4)]), None, "more is sent than the output holds");
        assert_eq!(answer(&[(1, 4)]), None, "no event");
        assert_eq!(answer(&[(1, 1), (3, 4)]), None, "a reserved Status");
        assert_eq!(answer(&[(1, 1), (3, ERROR)]), None, "the peer's command answered with ERROR");
        assert_eq!(answer(&[(1, 1), (8, 1), (9, 2)]), None, "an Application ID past the frame");
        assert_eq!(answer(&[(1, 2), (7, 2)]), None, "a flag of 2");
        assert_eq!(answer(&[(1, 3), (10, 256)]), None, "an M that is no octet");
        assert!(answer(&[(0, 3), (1, 2), (3, ERROR)]).is_some());
    }
}
