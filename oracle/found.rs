//! Which sector of its track a search finds, by the words of request 2026-05. The Rust
//! finds the sector, and tells nobody which one it is.

use std::ptr;

use raze::disk::Disk;
use raze::floppy::SectorId;

/// A sector that is found: its place in the track, from 1, and how many sectors of the
/// track bear its ID.
#[derive(Clone, Copy, Debug, PartialEq, Eq)]
pub struct Match {
    pub place: u64,
    pub count: u64,
}

impl Match {
    /// Where the sector stands that the Rust itself finds there, if it finds one.
    pub fn find(disk: &Disk, side: u8, cylinder: u8, id: &SectorId) -> Option<Match> {
        let track = disk.get_track(side, cylinder)?;
        let found = track.get_sector(id)?;
        let sectors = track.sectors().iter();
        let before = sectors.clone().take_while(|other| !ptr::eq(*other, found));
        let equal = sectors.filter(|other| other.id == *id);
        Some(Match {
            place: 1 + before.count() as u64,
            count: equal.count() as u64,
        })
    }
}
