//! As much of the session protocol (WSP) as a Connect, a Get and a Disconnect need.

const CONNECT_REPLY: u8 = 2;
const REPLY: u8 = 4;
/// The status of a page that is there.
pub const OK: u8 = 0x20;
/// The status of a page that isn't.
pub const NOT_FOUND: u8 = 0x44;
/// Why a user aborts one method; the session goes on.
pub const USER_REQUEST: u8 = 0xEA;
/// Why the gateway's user aborts a method without a session.
pub const DISCONNECTED: u8 = 0xE1;

/// A reply to a Get.
#[derive(Debug, Clone, PartialEq, Eq)]
pub struct Reply {
    pub status: u8,
    pub body: Vec<u8>,
}

/// Version 1.0, no capabilities, no headers.
pub fn connect() -> Vec<u8> {
    vec![0x01, 0x10, 0, 0]
}

/// A Get that accepts any type of content.
pub fn get(url: &str) -> Vec<u8> {
    let length = u32::try_from(url.len()).unwrap_or(u32::MAX);
    [&[0x40][..], &uintvar(length), url.as_bytes(), &[0x80, 0x80]].concat()
}

pub fn disconnect(session: u32) -> Vec<u8> {
    [&[0x05][..], &uintvar(session)].concat()
}

/// The number of the session, where the data is a ConnectReply.
pub fn connect_reply(data: &[u8]) -> Option<u32> {
    match data {
        [CONNECT_REPLY, rest @ ..] => read_uintvar(rest).map(|(session, _)| session),
        _ => None,
    }
}

/// Status and body, where the data is a Reply.
pub fn reply(data: &[u8]) -> Option<Reply> {
    match data {
        [REPLY, status, rest @ ..] => {
            let (headers, rest) = read_uintvar(rest)?;
            let body = rest.get(usize::try_from(headers).ok()?..)?;
            Some(Reply { status: *status, body: body.to_vec() })
        }
        _ => None,
    }
}

/// Seven bits an octet, the highest first; all octets but the last have their top bit set.
fn uintvar(value: u32) -> Vec<u8> {
    let bits = |shift: u32| u8::try_from(value >> shift & 0x7F).unwrap_or(0);
    let significant = [28, 21, 14, 7].into_iter().filter(|shift| value >> shift != 0);
    significant.map(|shift| bits(shift) | 0x80).chain([bits(0)]).collect()
}

fn read_uintvar(octets: &[u8]) -> Option<(u32, &[u8])> {
    let mut value: u32 = 0;
    let mut rest = octets;
    while let [octet, after @ ..] = rest {
        value = value.checked_mul(128)?.checked_add(u32::from(octet & 0x7F))?;
        rest = after;
        if *octet < 0x80 {
            return Some((value, rest));
        }
    }
    None
}

#[cfg(test)]
mod tests {
    use super::*;

    #[test]
    fn numbers_of_any_size_are_written_and_read() {
        for (value, octets) in [(0, &[0][..]), (127, &[0x7F]), (128, &[0x81, 0]), (16_384, &[0x81, 0x80, 0])] {
            assert_eq!(uintvar(value), octets);
        }
        for value in [0, 1, 127, 128, 300, 65_535, 1 << 28, u32::MAX] {
            assert_eq!(read_uintvar(&uintvar(value)), Some((value, &[][..])));
        }
    }

    #[test]
    fn a_number_that_is_cut_or_too_large_is_not_read() {
        for octets in [&[][..], &[0x80], &[0x81, 0x80], &[0x90, 0x80, 0x80, 0x80, 0x00]] {
            assert_eq!(read_uintvar(octets), None);
        }
    }

    #[test]
    fn a_reply_has_its_body_after_its_headers() {
        let body = b"12.5".to_vec();
        assert_eq!(reply(&[&[4, 0x20, 1, 0x83][..], &body].concat()), Some(Reply { status: OK, body }));
        assert_eq!(reply(&[4, 0x20, 2, 0x83]), None);
        assert_eq!(reply(&[2, 0x20, 0]), None);
        assert_eq!(reply(&[]), None);
    }

    #[test]
    fn a_connect_reply_has_the_number_of_the_session() {
        assert_eq!(connect_reply(&[2, 0x81, 0, 0, 0]), Some(128));
        assert_eq!(connect_reply(&[4, 0]), None);
    }
}
