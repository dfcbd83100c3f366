//! Information items.

use crate::bounds;
use crate::pdu::{Malformed, Part};

/// The identity of an Info item.
const INFO: u8 = 1;
/// The last identity that section 8.4 has, that of a Frame Boundary.
const LAST_KNOWN: u8 = 5;

#[derive(Clone, Copy, Debug, Default, PartialEq, Eq)]
pub struct Item {
    pub identity: u8,
    pub long: bool,
    pub data: Part,
}

#[derive(Clone, Copy, Debug, Default, PartialEq, Eq)]
pub struct Items {
    list: [Item; bounds::ITEMS],
    count: usize,
}

/// An item of an identity that section 8.4 hasn't, and the place of its first octet.
#[derive(Clone, Copy, Debug, PartialEq, Eq)]
pub struct Unknown {
    pub identity: u8,
    pub place: usize,
}

impl Item {
    /// The place of its first octet.
    fn place(&self) -> usize {
        self.data.start - if self.long { 2 } else { 1 }
    }
}

impl Items {
    pub fn iter(&self) -> impl Iterator<Item = &Item> {
        self.list.iter().take(self.count)
    }

    pub fn count(&self) -> usize {
        self.count
    }

    /// The data of the first Info item.
    pub fn info(&self) -> Option<Part> {
        self.iter().find(|item| item.identity == INFO).map(|item| item.data)
    }

    /// The first unknown item.
    pub fn unknown(&self) -> Option<Unknown> {
        let first = self.iter().find(|item| item.identity > LAST_KNOWN)?;
        Some(Unknown { identity: first.identity, place: first.place() })
    }

    /// The identity of the first unknown item, 0 where there is none.
    pub fn unknown_identity(&self) -> u8 {
        self.unknown().map_or(0, |unknown| unknown.identity)
    }
}

/// Walks the items from `at` on, if any follow; gives them and the place after the last one.
pub fn parse(octets: &[u8], mut at: usize, mut follows: bool) -> Result<(Items, usize), Malformed> {
    let mut items = Items::default();
    while follows {
        let place = items.list.get_mut(items.count).ok_or(Malformed::D4)?;
        let (item, con) = parse_one(octets, at).ok_or(Malformed::D3)?;
        *place = item;
        items.count += 1;
        at = item.data.end();
        follows = con;
    }
    Ok((items, at))
}

/// The item at `at` and its CON bit, unless it runs past the end.
fn parse_one(octets: &[u8], at: usize) -> Option<(Item, bool)> {
    let first = *octets.get(at)?;
    let long = first & 4 != 0;
    let data = if long {
        Part { start: at + 2, length: usize::from(*octets.get(at + 1)?) }
    } else {
        Part { start: at + 1, length: usize::from(first & 3) }
    };
    let item = Item { identity: first >> 3 & 15, long, data };
    (data.end() <= octets.len()).then_some((item, first & 0x80 != 0))
}
