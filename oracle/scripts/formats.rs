//! Formats: which track is replaced, where a new one comes, and what it holds.

use super::{List, format, image, no_tracks, track};
use crate::dsk::{Plan, Sector, Track};
use crate::script::{Operation, Place};

/// Adds the scripts that format tracks.
pub fn add(list: &mut List) {
    add_present(list);
    add_absent(list);
    add_equal_tracks(list);
    add_sides(list);
    add_fields(list);
    add_rows(list);
}

/// An image of tracks with two sectors each.
fn disk<const N: usize>(places: [Place; N]) -> Vec<u8> {
    image(places.map(|place| track(place, 2)))
}

fn sorted() -> Vec<u8> {
    disk([[0, 1], [0, 3], [1, 3], [0, 5]])
}

fn unsorted() -> Vec<u8> {
    disk([[0, 5], [1, 3], [0, 1], [0, 3]])
}

/// A track that is there is replaced where it stands, whatever it held.
fn add_present(list: &mut List) {
    for (name, count) in [("fewer", 1), ("as-many", 2), ("more", 3)] {
        let formats = [[0, 1], [0, 3], [0, 5]].map(|place| format(place, 0, count));
        let name = format!("format-present-with-{name}-sectors");
        list.add(name, sorted(), &formats);
    }
    let normal = Plan::normal(3, 1, 0x200).row(0x200, (1..4).map(sized));
    let counts = [(1, 2), (2, 1), (3, 4)];
    let formats = counts.map(|(cylinder, count)| format([0, cylinder], 0, count));
    list.add("format-present-of-another-length", normal.image(), &formats);
    let formats = [[0, 3], [0, 5], [1, 3]].map(|place| format(place, 0, 1));
    list.add("format-present-keeps-the-order", unsorted(), &formats);
}

/// A track with two sectors that are as long as a format makes them.
fn sized(cylinder: u8) -> Track {
    let sectors = [1, 2].map(|r| Sector::sized([cylinder, 0, r, 0]));
    Track::new(cylinder, 0, sectors.to_vec())
}

/// A track that is not there comes to its place, and all tracks are sorted.
fn add_absent(list: &mut List) {
    for (name, place) in [
        ("in-front", [0, 0]),
        ("in-the-middle", [0, 2]),
        ("between-equal-cylinders", [1, 1]),
        ("at-the-end", [0, 6]),
    ] {
        let operation = &[format(place, 0, 1)];
        list.add(format!("format-absent-{name}"), sorted(), operation);
        let name = format!("format-absent-{name}-of-unsorted");
        list.add(name, unsorted(), operation);
    }
    list.add(
        "format-absent-first-of-all",
        no_tracks(),
        &[format([1, 7], 0, 2)],
    );
}

/// Of equal tracks the first is replaced, and sorting keeps their order.
fn add_equal_tracks(list: &mut List) {
    let equal = || {
        image([
            track([0, 3], 1),
            track([0, 1], 2),
            track([0, 3], 3),
            track([1, 0], 1),
            track([0, 1], 1),
            track([0, 3], 2),
        ])
    };
    let twice = [format([0, 1], 0, 3), format([0, 1], 0, 0)];
    list.add("format-first-of-equal-tracks", equal(), &twice);
    list.add(
        "format-absent-beside-equal-tracks",
        equal(),
        &[format([0, 2], 0, 1)],
    );
    let both = [
        format([1, 1], 0, 1),
        format([0, 3], 0, 1),
        format([0, 0], 0, 0),
    ];
    list.add(
        "format-beside-equal-tracks-and-first-of-them",
        equal(),
        &both,
    );
}

/// Side and cylinder are told apart, and sides over 1 are sides like others.
fn add_sides(list: &mut List) {
    let disk = || disk([[0, 1], [0, 2], [2, 2]]);
    list.add(
        "format-side-1",
        disk(),
        &[format([1, 2], 0, 1), format([1, 2], 0, 2)],
    );
    let crossed = [format([2, 1], 0, 1), format([1, 0], 0, 1)];
    list.add("format-side-and-cylinder-crossed", disk(), &crossed);
    let far = [[2, 2], [255, 2], [128, 2], [3, 1]].map(|place| format(place, 0, 1));
    list.add("format-sides-over-1", disk(), &far);
    let cylinders = [[0, 128], [0, 254], [0, 127], [0, 255]].map(|place| format(place, 0, 0));
    list.add("format-high-cylinders", disk(), &cylinders);
}

/// The fields of a format: size, number of sectors, gap and filler.
fn add_fields(list: &mut List) {
    let sizes = [0, 1, 2, 3, 4, 6, 255].map(|n| format([0, n & 7], n, 2));
    list.add("format-sizes-by-n", no_tracks(), &sizes);
    let empty = [format([0, 3], 0, 0), format([0, 2], 3, 0)];
    list.add("format-without-sectors", sorted(), &empty);
    list.add("format-255-sectors", sorted(), &[format([0, 3], 0, 255)]);
    let fields = [[0, 0], [255, 255], [1, 128], [128, 1]];
    let formats = fields.map(|[gap, filler]| Operation::Format {
        place: [0, 3],
        n: 0,
        count: 1,
        gap,
        filler,
    });
    list.add("format-gap-and-filler", sorted(), &formats);
}

/// Formats one after another.
fn add_rows(list: &mut List) {
    let cylinders = |row: [u8; 6]| row.map(|cylinder| format([cylinder % 2, cylinder], 0, 1));
    for (name, row) in [
        ("upwards", [0, 1, 2, 3, 4, 5]),
        ("downwards", [5, 4, 3, 2, 1, 0]),
        ("crosswise", [3, 0, 5, 1, 3, 2]),
    ] {
        list.add(format!("format-row-{name}"), no_tracks(), &cylinders(row));
    }
    let sizes = [(3, 2), (0, 1), (2, 3), (4, 2), (255, 1), (0, 0), (1, 2)];
    let formats = sizes.map(|(n, count)| format([0, 3], n, count));
    list.add("format-one-track-again-and-again", sorted(), &formats);
    let formats = [
        format([0, 0], 1, 3),
        format([0, 40], 0, 1),
        format([1, 39], 2, 2),
    ];
    list.add_fresh("format-fresh-disk", &formats);
}
