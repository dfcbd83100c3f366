//! Octets written one after the other at the start of a lent output.

pub struct Output<'a> {
    octets: &'a mut [u8],
    length: usize,
}

impl<'a> Output<'a> {
    pub fn new(octets: &'a mut [u8]) -> Self {
        Output { octets, length: 0 }
    }

    /// The caller has judged that it fits.
    pub fn put(&mut self, octets: &[u8]) {
        self.octets[self.length..][..octets.len()].copy_from_slice(octets);
        self.length += octets.len();
    }

    pub fn length(&self) -> usize {
        self.length
    }
}
