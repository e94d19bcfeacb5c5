//! Images made by chance: good ones and damaged ones, of both kinds.

mod damage;
mod plans;

use std::collections::BTreeSet;

use crate::chance::Chance;
use crate::dsk::cut;

/// More stored bytes than this are not asked of the Rust, which takes memory for
/// each.
const MOST_COST: usize = 4_194_304;

/// Any image.
pub fn any(chance: &mut Chance) -> Vec<u8> {
    if chance.once_in(60) {
        return damage::noise(chance);
    }
    let plan = plans::any(chance);
    let image = damage::any(&plan, chance);
    affordable(image)
}

/// An image that stores more than the largest data room, or nearly so.
pub fn heavy(chance: &mut Chance) -> Vec<u8> {
    plans::heavy(chance).image()
}

/// A good image of a few small tracks, on which commands find something.
pub fn small(chance: &mut Chance) -> Vec<u8> {
    plans::small(chance).image()
}

/// A good image of a few tracks on which most IDs stand more than once.
pub fn few_ids(chance: &mut Chance) -> Vec<u8> {
    plans::few_ids(chance).image()
}

/// A good image with a track of more sectors than a list has place for, or about so.
pub fn long_list(chance: &mut Chance) -> Vec<u8> {
    plans::long_list(chance).image()
}

/// A good image close to the largest number of tracks, of sectors, or of both.
pub fn nearly_full(chance: &mut Chance) -> Vec<u8> {
    let plan = match chance.below(3) {
        0 => {
            let number = 200 + chance.small(5);
            plans::headers(number, 1, chance)
        }
        1 => {
            let last = 4 + chance.small(5);
            plans::rows(&[255, 255, 255, 255, 255, 255, 255, 255, last])
        }
        _ => plans::rows(&[10; 204]),
    };
    plan.image()
}

/// A good image of a usual disk: 40 tracks of nine sectors of 512 bytes.
pub fn usual(extended: bool) -> Vec<u8> {
    plans::usual(extended).image()
}

/// A good image, cut at and beside every boundary.
pub fn cuts(chance: &mut Chance) -> Vec<Vec<u8>> {
    let plan = plans::small(chance);
    let image = plan.image();
    let beside = |at: usize| at.saturating_sub(1)..=at + 1;
    let lengths: BTreeSet<usize> = plan.boundaries().into_iter().flat_map(beside).collect();
    let lengths = lengths.range(..=image.len());
    lengths.map(|&length| cut(&image, length)).collect()
}

/// The image with fewer sides where one small block stands for very many tracks.
fn affordable(mut image: Vec<u8>) -> Vec<u8> {
    if let [Some(&tracks), Some(&sides), Some(&sectors)] =
        [0x30, 0x31, 0x115].map(|at| image.get(at))
    {
        let track = usize::from(sectors) * 1_024 + 64;
        let tracks = usize::from(tracks);
        if tracks * usize::from(sides) * track > MOST_COST {
            image[0x31] = (MOST_COST / track / tracks.max(1)).clamp(1, 255) as u8;
        }
    }
    image
}
