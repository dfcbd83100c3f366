//! Octets taken one after the other, with the place that each has.

use crate::frame::Part;

#[derive(Clone, Copy)]
pub struct Cursor<'a> {
    octets: &'a [u8],
    at: usize,
}

impl<'a> Cursor<'a> {
    pub fn new(octets: &'a [u8]) -> Cursor<'a> {
        Cursor { octets, at: 0 }
    }

    pub fn left(&self) -> usize {
        self.octets.len() - self.at
    }

    pub fn octet(&mut self) -> Option<u8> {
        let octet = *self.octets.get(self.at)?;
        self.at += 1;
        Some(octet)
    }

    pub fn part(&mut self, length: usize) -> Option<Part> {
        let part = Part { start: self.at, length };
        (length <= self.left()).then(|| {
            self.at += length;
            part
        })
    }

    pub fn rest(&mut self) -> Part {
        let part = Part { start: self.at, length: self.left() };
        self.at = self.octets.len();
        part
    }

    /// 16 octets OS Id, one octet L, L octets OS App Id.
    pub fn application(&mut self) -> Option<Part> {
        let length = *self.octets.get(self.at..)?.get(16)?;
        self.part(17 + usize::from(length))
    }
}
