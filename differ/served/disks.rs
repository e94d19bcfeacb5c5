//! Disks on which a sector is looked for, and what is told of it, by hand.

use crate::dsk::{Sector, Track};
use crate::found::Match;
use crate::host::Address;

/// The ID that is looked for.
pub const WANTED: [u8; 4] = [0, 0, 1, 0];

/// A disk: its name, its tracks, the cylinder and side where the wanted ID is looked
/// for, and what is told of it.
pub struct Case {
    pub name: &'static str,
    pub tracks: Vec<Track>,
    pub cylinder: u8,
    pub side: u8,
    pub told: Option<Match>,
}

impl Case {
    /// Where the wanted sector is looked for.
    pub fn address(&self) -> Address {
        let [c, h, r, n] = WANTED;
        [self.side, self.cylinder, c, h, r, n]
    }

    /// The second byte of a command for drive 0 and this side.
    pub fn c1(&self) -> u8 {
        self.side * 4
    }
}

/// What is told of the sector at this place, of so many with its ID.
pub fn at(place: u64, count: u64) -> Option<Match> {
    Some(Match { place, count })
}

/// A track of cylinder 0 whose sectors have these IDs.
fn track(side: u8, ids: impl IntoIterator<Item = [u8; 4]>) -> Track {
    let sectors = ids.into_iter().map(|id| Sector::stored(id, 128));
    Track::new(0, side, sectors.collect())
}

/// A track of cylinder 0 and side 0 whose sectors have these numbers.
pub fn numbers(numbers: impl IntoIterator<Item = u8>) -> Track {
    track(0, numbers.into_iter().map(|r| [0, 0, r, 0]))
}

/// All of them.
pub fn all() -> Vec<Case> {
    let mut all = short();
    all.extend(long());
    all.extend(tracks());
    all.extend(elsewhere());
    all.extend(beside());
    all
}

fn case(name: &'static str, tracks: Vec<Track>, told: Option<Match>) -> Case {
    Case {
        name,
        tracks,
        cylinder: 0,
        side: 0,
        told,
    }
}

/// One track of few sectors.
fn short() -> Vec<Case> {
    let one = |numbers: &[u8]| vec![self::numbers(numbers.iter().copied())];
    vec![
        case("the only one", one(&[1]), at(1, 1)),
        case("places 1 2 3", one(&[1, 1, 1]), at(1, 3)),
        case("places 2 5", one(&[9, 1, 8, 7, 1, 6]), at(2, 2)),
        case("place 3, others twice", one(&[2, 2, 1, 3, 3]), at(3, 1)),
        case("none", one(&[2, 2, 3]), None),
        case("no sectors", one(&[]), None),
    ]
}

/// One track of 255 sectors.
fn long() -> Vec<Case> {
    let last = numbers((2..=255).chain([1]));
    let last_two = numbers((2..=254).chain([1, 1]));
    let both_ends = numbers((1..=254).chain([1]));
    vec![
        case("place 255", vec![last], at(255, 1)),
        case("places 254 255", vec![last_two], at(254, 2)),
        case("places 1 255", vec![both_ends], at(1, 2)),
        case("all 255", vec![numbers([1; 255])], at(1, 255)),
        case("none of 255", vec![numbers([2; 255])], None),
    ]
}

/// Equal tracks, of which the first is searched.
fn tracks() -> Vec<Case> {
    let [two, three] = [numbers([2, 1]), numbers([1, 1, 1])];
    let first = vec![two, three.clone()];
    let other = vec![numbers([2]), three.clone()];
    let empty = vec![numbers([]), three];
    vec![
        case("equal tracks", first, at(2, 1)),
        case("equal tracks, the second has it", other, None),
        case("equal tracks, the first is empty", empty, None),
        case("no track", vec![], None),
    ]
}

/// Tracks of another side, and of a cylinder that the ID does not name.
fn elsewhere() -> Vec<Case> {
    let two = numbers([2, 1]);
    let side = track(1, [[0, 0, 9, 0], WANTED, WANTED]);
    let cylinder = Track {
        cylinder: 3,
        ..numbers([9, 8, 1, 1])
    };
    let at_side = |case| Case { side: 1, ..case };
    let at_cylinder = |case| Case {
        cylinder: 3,
        ..case
    };
    let [sides, cylinders] = [vec![two.clone(), side], vec![two.clone(), cylinder]];
    vec![
        at_side(case("side 1", sides, at(2, 2))),
        at_side(case("side 1 is not there", vec![two.clone()], None)),
        at_cylinder(case("cylinder 3", cylinders, at(3, 2))),
        at_cylinder(case("cylinder 3 is not there", vec![two], None)),
    ]
}

/// IDs that differ in one byte, and sectors that have no bytes.
fn beside() -> Vec<Case> {
    let others = [[1, 0, 1, 0], [0, 1, 1, 0], [0, 0, 0, 0], [0, 0, 1, 4]];
    let behind = track(0, others.into_iter().chain([WANTED, WANTED]));
    let before = track(0, [WANTED].into_iter().chain(others));
    let bare = [2, 1, 1].map(|r| Sector::stored([0, 0, r, 0], 0));
    vec![
        case("behind IDs that differ", vec![behind], at(5, 2)),
        case("before IDs that differ", vec![before], at(1, 1)),
        case("only IDs that differ", vec![track(0, others)], None),
        case("no bytes", vec![Track::new(0, 0, bare.to_vec())], at(2, 2)),
    ]
}
