//! A buffer of which a part is lent to the library, beside what it should hold.

use crate::chance::Chance;

/// The bytes, what they should be, and how many of them are lent. Those behind
/// the lent part are watched as well.
pub struct Buffer {
    bytes: Vec<u8>,
    expected: Vec<u8>,
    lent: usize,
}

impl Buffer {
    /// A buffer of noise, of which `lent` bytes are lent, and `more` stand behind.
    pub fn new(lent: usize, more: usize, chance: &mut Chance) -> Buffer {
        let bytes = chance.bytes(lent + more);
        Buffer {
            expected: bytes.clone(),
            bytes,
            lent,
        }
    }

    /// The lent part.
    pub fn part(&self) -> &[u8] {
        &self.bytes[..self.lent]
    }

    /// The lent part, to be changed by the library.
    pub fn part_mut(&mut self) -> &mut [u8] {
        &mut self.bytes[..self.lent]
    }

    /// How many bytes are lent.
    pub fn lent(&self) -> usize {
        self.lent
    }

    /// Lends so many bytes from now on, or all where there are fewer.
    pub fn lend(&mut self, length: usize) {
        self.lent = length.min(self.bytes.len());
    }

    /// How many bytes there are.
    pub fn length(&self) -> usize {
        self.bytes.len()
    }

    /// Fills all of it with other noise.
    pub fn renew(&mut self, chance: &mut Chance) {
        self.bytes = chance.bytes(self.bytes.len());
        self.expected.copy_from_slice(&self.bytes);
    }

    /// These bytes should now be laid over the start.
    pub fn expect(&mut self, bytes: &[u8]) {
        self.expected[..bytes.len()].copy_from_slice(bytes);
    }

    /// The first byte that is not as it should be: its place, what it should be,
    /// and what it is.
    pub fn wrong(&self) -> Option<(usize, u8, u8)> {
        if self.bytes == self.expected {
            return None;
        }
        let mut pairs = self.expected.iter().zip(&self.bytes).enumerate();
        let found = pairs.find(|(_, (expected, byte))| expected != byte);
        found.map(|(place, (&expected, &byte))| (place, expected, byte))
    }
}
