//! The older form of capture: a header, then the frames.

use super::octets::{array_at, part, u32_at, Order};
use super::{Broken, Frame};

const HEADER: usize = 24;
const LINK: usize = 20;
const RECORD: usize = 16;
const BILLION: u64 = 1_000_000_000;

struct Form {
    order: Order,
    /// Nanoseconds of one unit of a frame's time.
    unit: u64,
}

pub fn begins(content: &[u8]) -> bool {
    form(content).is_some()
}

pub fn frames(content: &[u8]) -> (Vec<Frame<'_>>, Option<Broken>) {
    let mut frames = Vec::new();
    let link = form(content).and_then(|form| Some((u32_at(content, LINK, form.order)?, form)));
    let (link, form) = match link {
        // The high half tells of checksums at the frames' ends.
        Some((link, form)) => (link & 0xFFFF, form),
        None => return (frames, Some(Broken { at: content.len(), what: "the capture's header is cut short" })),
    };
    let mut at = HEADER;
    while at < content.len() {
        match frame(content, at, link, &form) {
            Some((frame, next)) => {
                frames.push(frame);
                at = next;
            }
            None => return (frames, Some(Broken { at, what: "a frame runs past the end of the capture" })),
        }
    }
    (frames, None)
}

fn form(content: &[u8]) -> Option<Form> {
    let (order, unit) = match array_at(content, 0)? {
        [0xA1, 0xB2, 0xC3, 0xD4] => (Order::High, 1_000),
        [0xD4, 0xC3, 0xB2, 0xA1] => (Order::Low, 1_000),
        [0xA1, 0xB2, 0x3C, 0x4D] => (Order::High, 1),
        [0x4D, 0x3C, 0xB2, 0xA1] => (Order::Low, 1),
        _ => return None,
    };
    Some(Form { order, unit })
}

/// The frame whose record begins at `at`, and where the next one does.
fn frame<'a>(content: &'a [u8], at: usize, link: u32, form: &Form) -> Option<(Frame<'a>, usize)> {
    let word = |k: usize| u32_at(content, at.checked_add(k)?, form.order);
    let (seconds, units, kept, length) = (word(0)?, word(4)?, word(8)?, word(12)?);
    let start = at.checked_add(RECORD)?;
    let octets = part(content, start, kept)?;
    let time = u64::from(seconds).checked_mul(BILLION)?.checked_add(u64::from(units).checked_mul(form.unit)?);
    let frame = Frame { time, link: Some(link), octets, length: u64::from(length) };
    Some((frame, start.checked_add(octets.len())?))
}
