//! The exported calls over slices, and what their words are held to.

#[path = "../rust/src/ffi.rs"]
mod ffi;
#[path = "../rust/src/words.rs"]
mod words;

use crate::found::Match;

pub use words::*;

/// How many bytes a controller has.
pub const CONTROLLER: usize = 1_068;

/// How many bytes a disk's table has.
pub const TABLE: usize = 17_609;

/// How many bytes the longest sheet has: all lengths and numbers, a command that lacks
/// its last byte, a reply, unread data, and c1, ID and bytes of a write that lacks its
/// last byte. A Format, beside which there is no write, is shorter.
pub const SHEET: usize = 36 + 8 + 7 + 65_536 + 5 + 1_023;

/// The word of a call that is refused with this number, or that answers nothing
/// where it is 0.
pub fn refused(number: u8) -> u64 {
    u64::from(number) << 8
}

impl Match {
    /// Bits 16 to 31 of a word that tells of this sector, or of none.
    pub fn word(found: Option<Match>) -> u64 {
        found.map_or(0, |Match { place, count }| place << 16 | count << 24)
    }
}
