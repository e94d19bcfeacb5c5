//! The list of scripts, one module for each group. The name of a script says what
//! it would show broken.

mod edges;
mod formats;
mod ids;
mod mixed;
mod reads;
mod saves;

use std::collections::HashSet;

use crate::dsk::{Plan, Sector, Track};
use crate::script::{Id, Operation, Place, Script};
use crate::stream::Record;

/// A transfer room that suffices for every read.
const AMPLE: u32 = 65_536;

/// The list while it is made.
#[derive(Default)]
struct List {
    scripts: Vec<Script>,
    names: HashSet<String>,
}

impl List {
    /// Adds a script whose disk is this image.
    fn add(&mut self, name: impl Into<String>, image: Vec<u8>, operations: &[Operation]) {
        let name = name.into();
        assert!(self.names.insert(name.clone()), "{name} is there twice");
        let script = Record::new(name, image)
            .and_then(|record| Script::new(record, operations.to_vec()))
            .unwrap_or_else(|fault| panic!("{fault}"));
        self.scripts.push(script);
    }

    /// Adds a script whose disk is a fresh one.
    fn add_fresh(&mut self, name: impl Into<String>, operations: &[Operation]) {
        self.add(name, Vec::new(), operations);
    }
}

/// All scripts, in the order of the list.
pub fn list() -> Vec<Script> {
    let mut list = List::default();
    formats::add(&mut list);
    saves::add(&mut list);
    reads::add(&mut list);
    ids::add(&mut list);
    mixed::add(&mut list);
    edges::add(&mut list);
    list.scripts
}

/// A format with a gap that no image has, and a filler that follows from the other
/// fields, so that tracks with exchanged data show.
fn format(place: Place, n: u8, count: u8) -> Operation {
    let fields = place.into_iter().chain([n, count]);
    let filler = fields.fold(0u8, |sum, field| sum.wrapping_mul(31).wrapping_add(field));
    Operation::Format {
        place,
        n,
        count,
        gap: 42,
        filler,
    }
}

fn save(place: Place, id: Id, length: u16) -> Operation {
    Operation::Save {
        place,
        id,
        length,
        seed: 7,
    }
}

fn read(place: Place, id: Id, eot: u8, room: u32) -> Operation {
    Operation::Read {
        place,
        id,
        eot,
        room,
    }
}

fn id(place: Place, index: u16) -> Operation {
    Operation::Id { place, index }
}

/// The image of a disk without tracks.
fn no_tracks() -> Vec<u8> {
    Plan::extended(0, 1, &[]).image()
}

/// The image of a disk with these tracks.
fn image(tracks: impl IntoIterator<Item = Track>) -> Vec<u8> {
    Plan::of(tracks).image()
}

/// A track with sectors 1 to `count`, which store 17, 18, 19, .. bytes.
fn track([side, cylinder]: Place, count: u8) -> Track {
    let sector = |r: u8| Sector::stored([cylinder, side, r, 0], 16 + u16::from(r));
    Track::new(cylinder, side, (1..=count).map(sector).collect())
}

/// Cylinder 2 of side 0, with these sectors.
fn track_of(sectors: impl IntoIterator<Item = (Id, u16)>) -> Track {
    let sectors = sectors.into_iter();
    let sectors = sectors.map(|(id, length)| Sector::stored(id, length));
    Track::new(2, 0, sectors.collect())
}
