//! The newer form of capture: blocks, of which each says its length. Blocks that hold no frame are passed over.

use super::octets::{array_at, part, u16_at, u32_at, Order};
use super::{Broken, Frame};

const SECTION: u32 = 0x0A0D_0D0A;
const INTERFACE: u32 = 1;
const SIMPLE: u32 = 3;
const ENHANCED: u32 = 6;
/// Of type and length before a block's body, and of the length again after it.
const BEFORE: usize = 8;
const AFTER: u32 = 4;
const TIME_RESOLUTION: u16 = 9;

struct Interface {
    link: u32,
    /// The longest frame that is kept, 0 for any.
    longest: u32,
    /// Units of time in a second.
    units: Option<u128>,
}

struct Reader<'a> {
    order: Order,
    interfaces: Vec<Interface>,
    frames: Vec<Frame<'a>>,
}

pub fn begins(content: &[u8]) -> bool {
    content.starts_with(&SECTION.to_be_bytes())
}

pub fn frames(content: &[u8]) -> (Vec<Frame<'_>>, Option<Broken>) {
    let mut reader = Reader { order: Order::High, interfaces: Vec::new(), frames: Vec::new() };
    let mut at = 0;
    while at < content.len() {
        match reader.block(content, at) {
            Some(next) => at = next,
            None => {
                let what = "a block of the capture is damaged or runs past the end";
                return (reader.frames, Some(Broken { at, what }));
            }
        }
    }
    (reader.frames, None)
}

impl<'a> Reader<'a> {
    /// Reads the block at `at` and says where the next one begins.
    fn block(&mut self, content: &'a [u8], at: usize) -> Option<usize> {
        let body = at.checked_add(BEFORE)?;
        if content.get(at..)?.starts_with(&SECTION.to_be_bytes()) {
            self.order = order(content, body)?;
            self.interfaces.clear();
        }
        let kind = u32_at(content, at, self.order)?;
        let length = u32_at(content, at.checked_add(4)?, self.order)?;
        let inside = length.checked_sub(AFTER)?.checked_sub(u32::try_from(BEFORE).ok()?)?;
        let inside = part(content, body, inside)?;
        let end = body.checked_add(inside.len())?;
        if length % 4 != 0 || u32_at(content, end, self.order)? != length {
            return None;
        }
        match kind {
            INTERFACE => self.interfaces.push(interface(inside, self.order)?),
            ENHANCED => self.frames.push(self.enhanced(inside)?),
            SIMPLE => self.frames.push(self.simple(inside)?),
            _ => {}
        }
        end.checked_add(usize::try_from(AFTER).ok()?)
    }

    fn enhanced(&self, body: &'a [u8]) -> Option<Frame<'a>> {
        let word = |k| u32_at(body, k, self.order);
        let (which, high, low, kept, length) = (word(0)?, word(4)?, word(8)?, word(12)?, word(16)?);
        let interface = usize::try_from(which).ok().and_then(|which| self.interfaces.get(which));
        let units = u64::from(high) << 32 | u64::from(low);
        Some(Frame {
            time: interface.and_then(|interface| nanoseconds(units, interface.units?)),
            link: interface.map(|interface| interface.link),
            octets: part(body, 20, kept)?,
            length: u64::from(length),
        })
    }

    /// A frame of the first interface, without a time. It is filled up to four octets, so its own length says where it ends.
    fn simple(&self, body: &'a [u8]) -> Option<Frame<'a>> {
        let length = u32_at(body, 0, self.order)?;
        let first = self.interfaces.first();
        let longest = first.map_or(0, |interface| interface.longest);
        let kept = if longest == 0 { length } else { length.min(longest) };
        let octets = part(body, 4, kept)?;
        Some(Frame { time: None, link: first.map(|interface| interface.link), octets, length: u64::from(length) })
    }
}

fn order(content: &[u8], at: usize) -> Option<Order> {
    match array_at(content, at)? {
        [0x1A, 0x2B, 0x3C, 0x4D] => Some(Order::High),
        [0x4D, 0x3C, 0x2B, 0x1A] => Some(Order::Low),
        _ => None,
    }
}

fn interface(body: &[u8], order: Order) -> Option<Interface> {
    let link = u32::from(u16_at(body, 0, order)?);
    let longest = u32_at(body, 4, order)?;
    Some(Interface { link, longest, units: units_in_a_second(body.get(8..)?, order) })
}

/// Looks through the interface's options; without one that tells, a unit is a microsecond.
fn units_in_a_second(mut options: &[u8], order: Order) -> Option<u128> {
    while let (Some(code), Some(length)) = (u16_at(options, 0, order), u16_at(options, 2, order)) {
        let value = part(options, 4, u32::from(length))?;
        match (code, value) {
            (0, _) => break,
            (TIME_RESOLUTION, [power, ..]) if *power < 0x80 => return 10u128.checked_pow(u32::from(*power)),
            (TIME_RESOLUTION, [power, ..]) => return 2u128.checked_pow(u32::from(*power & 0x7F)),
            _ => {}
        }
        let filled = value.len().checked_add(3)? / 4 * 4;
        options = options.get(filled.checked_add(4)?..)?;
    }
    Some(1_000_000)
}

fn nanoseconds(units: u64, in_a_second: u128) -> Option<u64> {
    let billion = 1_000_000_000;
    u64::try_from(u128::from(units).checked_mul(billion)?.checked_div(in_a_second)?).ok()
}
