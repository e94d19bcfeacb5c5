//! The capacities of document 01. The Rust has none.

use std::fmt;
use std::ptr;

use raze::disk::{Disk, Track};

pub const MOST_TRACKS: usize = 204;
pub const MOST_SECTORS: usize = 2_048;
pub const MOST_BYTES: usize = 1_048_576;
pub const MOST_TRANSFER: usize = 65_536;

/// How much a disk holds.
pub struct Totals {
    pub tracks: usize,
    pub sectors: usize,
    pub bytes: usize,
}

impl Totals {
    /// What the disk holds.
    pub fn of(disk: &Disk) -> Totals {
        Totals::of_tracks(disk.tracks())
    }

    /// What a disk of these tracks holds.
    pub fn of_tracks<'a>(tracks: impl IntoIterator<Item = &'a Track>) -> Totals {
        let mut totals = Totals {
            tracks: 0,
            sectors: 0,
            bytes: 0,
        };
        for track in tracks {
            let lengths = track.sectors().iter().map(|sector| sector.data.len());
            totals.tracks += 1;
            totals.sectors += track.sectors().len();
            totals.bytes += lengths.sum::<usize>();
        }
        totals
    }

    /// What the disk would hold with this track, for which the first of the same
    /// side and cylinder makes room.
    pub fn with(disk: &Disk, track: &Track) -> Totals {
        let old = disk.get_track(track.side(), track.cylinder());
        let is_old = |other: &&Track| old.is_some_and(|old| ptr::eq(*other, old));
        let kept = disk.tracks().iter().filter(|other| !is_old(other));
        Totals::of_tracks(kept.chain([track]))
    }

    /// The refusal number of document 01 for a disk beyond its capacities, with
    /// the largest data room.
    pub fn refusal(&self) -> Option<u8> {
        self.refusal_in(MOST_BYTES)
    }

    /// The refusal number of document 01 for a disk beyond its capacities, with a
    /// data buffer of this length.
    pub fn refusal_in(&self, length: usize) -> Option<u8> {
        if self.tracks > MOST_TRACKS {
            Some(6)
        } else if self.sectors > MOST_SECTORS {
            Some(7)
        } else if self.bytes > MOST_BYTES.min(length) {
            Some(8)
        } else {
            None
        }
    }
}

impl fmt::Display for Totals {
    fn fmt(&self, f: &mut fmt::Formatter<'_>) -> fmt::Result {
        let Totals {
            tracks,
            sectors,
            bytes,
        } = self;
        write!(f, "disk tracks {tracks} sectors {sectors} bytes {bytes}")
    }
}

/// The refusal number of document 01 for a read of so many bytes into a transfer
/// buffer of this length.
pub fn transfer_refusal(bytes: usize, length: u32) -> Option<u8> {
    (bytes > MOST_TRANSFER.min(length as usize)).then_some(9)
}
