//! The greatest cylinder of side 0, and of all other sides.

use super::List;
use crate::dsk::{FIRST, Plan, Sector, Track};

/// Adds the images that turn on the cylinders and sides of tracks.
pub fn add(list: &mut List) {
    add_sides(list);
    add_unusual(list);
}

/// A track with one sector.
fn track((cylinder, side): (u8, u8)) -> Track {
    let sector = Sector::stored([cylinder, side, 1, 0], 16);
    Track::new(cylinder, side, vec![sector])
}

/// Tracks by their cylinders and sides, in the order of the image.
fn add_sides(list: &mut List) {
    let disks: [(&str, &[(u8, u8)]); 13] = [
        ("side-0-alone", &[(3, 0), (9, 0), (5, 0)]),
        ("side-1-alone", &[(3, 1), (9, 1), (5, 1)]),
        ("side-2-alone", &[(3, 2), (9, 2), (5, 2)]),
        ("side-1-beyond-side-0", &[(4, 0), (6, 1), (5, 0), (5, 1)]),
        ("side-1-short-of-side-0", &[(4, 1), (6, 0), (5, 1), (5, 0)]),
        ("side-2-beyond-side-0", &[(4, 0), (6, 2), (5, 0), (5, 2)]),
        ("side-2-short-of-side-0", &[(4, 2), (6, 0), (5, 2), (5, 0)]),
        ("side-2-beyond-side-1", &[(7, 0), (3, 1), (5, 2)]),
        ("side-2-short-of-side-1", &[(4, 0), (9, 1), (2, 2)]),
        ("sides-128-and-255", &[(1, 0), (8, 128), (6, 255)]),
        ("cylinder-0-of-each-side", &[(0, 0), (0, 1), (0, 2)]),
        ("cylinder-255-of-side-0", &[(255, 0), (254, 1), (1, 0)]),
        ("cylinder-255-of-side-1", &[(254, 0), (255, 1), (1, 1)]),
    ];
    for (name, places) in disks {
        let plan = Plan::of(places.iter().copied().map(track));
        list.add(format!("geometry-{name}"), plan.image());
    }
}

/// Only the cylinders and sides of the tracks that are there count.
fn add_unusual(list: &mut List) {
    let empty = [(7, 0), (9, 1)].map(|(cylinder, side)| Track::new(cylinder, side, Vec::new()));
    list.add(
        "geometry-tracks-without-sectors-count",
        Plan::of(empty).image(),
    );
    let sectors = vec![Sector::stored([200, 1, 1, 0], 16)];
    let ids = Plan::of([Track::new(3, 0, sectors)]);
    list.add("geometry-is-not-that-of-the-ids", ids.image());
    let mut table = [0; 80];
    table[79] = 2;
    let header = Plan::extended(40, 2, &table).track(FIRST, track((2, 1)));
    list.add("geometry-is-not-that-of-the-header", header.image());
}
