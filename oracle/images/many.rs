//! Small images that stand for very large disks: with a track size of 0 every
//! track is read at the same place.

use super::List;
use crate::dsk::{FIRST, Plan, Sector, Track};

/// Adds the images of very many tracks and sectors.
pub fn add(list: &mut List) {
    list.add("many-tracks-65025-without-sectors", image(255, 255, 0));
    list.add("many-sectors-65280", image(16, 16, 255));
    list.add("many-sectors-16581375", image(255, 255, 255));
}

/// An image that is as small as its numbers of tracks, sides and sectors allow.
fn image(tracks: u8, sides: u8, sectors: u8) -> Vec<u8> {
    let ids = (1..=sectors).map(|r| Sector::sized([0, 0, r, 0]));
    Plan::normal(tracks, sides, 0)
        .track(FIRST, Track::new(0, 0, ids.collect()))
        .image()
}
