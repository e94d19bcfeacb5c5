//! Disks at the edges of what an extended image holds (request 2026-03), each with
//! what it is written as told by hand.

use crate::dsk::{Sector, Track};

/// What a disk is written as: length, cylinders and sides of its image, or nothing
/// where it is refused with 12.
pub type Written = Option<(usize, u8, u8)>;

/// What it is that stands at the edge, the tracks of the disk, and what it is written
/// as.
pub type Edge = (&'static str, Vec<Track>, Written);

/// The image of a disk of one track of so many bytes, on cylinder and side 0.
fn one(length: usize) -> Written {
    Some((256 + length, 1, 1))
}

/// The image of a disk of so many small tracks.
fn small(tracks: usize, cylinders: u8, sides: u8) -> Written {
    Some((256 + tracks * 512, cylinders, sides))
}

/// All of them.
pub fn all() -> Vec<Edge> {
    [
        contents(),
        lengths(),
        cylinders(),
        sides(),
        orders(),
        full(),
    ]
    .concat()
}

/// A track with sectors of these lengths.
fn track(lengths: &[u16]) -> Track {
    let sectors = (1..).zip(lengths);
    let sectors = sectors.map(|(r, &length)| Sector::stored([0, 0, r, 2], length));
    Track::new(0, 0, sectors.collect())
}

/// Small tracks with these cylinders and sides.
fn places(places: &[(u8, u8)]) -> Vec<Track> {
    let track = |&(cylinder, side): &(u8, u8)| {
        let sectors = vec![Sector::stored([cylinder, side, 1, 0], 3)];
        Track::new(cylinder, side, sectors)
    };
    places.iter().map(track).collect()
}

/// Every field of a track and a sector another number.
fn odd() -> Track {
    let first = Sector::stored([7, 8, 9, 10], 0x103).status(11, 12);
    let second = Sector::stored([13, 14, 15, 255], 1).status(255, 16);
    Track {
        cylinder: 2,
        side: 1,
        size: 3,
        gap: 4,
        filler: 5,
        sectors: vec![first, second],
    }
}

/// Disks, tracks and sectors with nothing in them, and lists as long as they get.
fn contents() -> Vec<Edge> {
    vec![
        ("no tracks", vec![], Some((256, 0, 1))),
        ("a track without sectors", vec![track(&[])], one(256)),
        ("a sector without bytes", vec![track(&[0])], one(256)),
        ("sectors without bytes", vec![track(&[0, 5, 0])], one(512)),
        ("odd fields", vec![odd()], Some((256 + 768, 3, 2))),
        ("29 sectors without bytes", vec![track(&[0; 29])], one(256)),
        ("29 sectors", vec![track(&[512; 29])], one(256 + 29 * 512)),
        ("30 sectors without bytes", vec![track(&[0; 30])], None),
        ("30 sectors", vec![track(&[512; 30])], None),
        ("255 sectors", vec![track(&[1; 255])], None),
        (
            "30 sectors on the last track",
            [
                places(&[(0, 0)]),
                vec![Track {
                    cylinder: 1,
                    ..track(&[0; 30])
                }],
            ]
            .concat(),
            None,
        ),
    ]
}

/// Tracks as long as they get.
fn lengths() -> Vec<Edge> {
    let twice = [32_512, 32_512];
    vec![
        ("1 data byte", vec![track(&[1])], one(512)),
        ("255 data bytes", vec![track(&[255])], one(512)),
        ("256 data bytes", vec![track(&[128, 128])], one(512)),
        ("257 data bytes", vec![track(&[256, 1])], one(768)),
        ("64,768 data bytes", vec![track(&[64_768])], one(65_024)),
        ("64,769 data bytes", vec![track(&[64_769])], one(65_280)),
        ("65,024 data bytes", vec![track(&[65_024])], one(65_280)),
        ("65,024 in two sectors", vec![track(&twice)], one(65_280)),
        ("65,025 data bytes", vec![track(&[65_025])], None),
        (
            "65,025 in two sectors",
            vec![track(&[32_512, 32_513])],
            None,
        ),
        ("65,280 data bytes", vec![track(&[65_280])], None),
        ("65,535 data bytes", vec![track(&[65_535])], None),
        ("131,070 data bytes", vec![track(&[65_535; 2])], None),
    ]
}

/// Cylinders times sides up to 204, and over.
fn cylinders() -> Vec<Edge> {
    let all: Vec<(u8, u8)> = (0..204).map(|place| (place, 0)).collect();
    let both: Vec<(u8, u8)> = (0..204).map(|place| (place / 2, place % 2)).collect();
    vec![
        ("203 on one side", places(&[(203, 0)]), small(1, 204, 1)),
        ("204 on one side", places(&[(204, 0)]), None),
        ("255 on one side", places(&[(255, 0)]), None),
        ("101 on side 1", places(&[(101, 1)]), small(1, 102, 2)),
        ("102 on side 1", places(&[(102, 1)]), None),
        ("127 on side 1", places(&[(127, 1)]), None),
        ("255 on side 1", places(&[(255, 1)]), None),
        (
            "101 on side 0 of two",
            places(&[(0, 1), (101, 0)]),
            small(2, 102, 2),
        ),
        ("102 on side 0 of two", places(&[(0, 1), (102, 0)]), None),
        (
            "102 on side 0 of one",
            places(&[(102, 0)]),
            small(1, 103, 1),
        ),
        ("204 tracks on one side", places(&all), small(204, 204, 1)),
        ("204 tracks on two sides", places(&both), small(204, 102, 2)),
    ]
}

/// Sides, and tracks that are not there.
fn sides() -> Vec<Edge> {
    vec![
        ("only side 0", places(&[(0, 0), (1, 0)]), small(2, 2, 1)),
        ("only side 1", places(&[(0, 1), (1, 1)]), small(2, 2, 2)),
        ("both sides", places(&[(0, 0), (0, 1)]), small(2, 1, 2)),
        ("side 2", places(&[(0, 2)]), None),
        ("side 255", places(&[(0, 255)]), None),
        ("sides 0, 1 and 2", places(&[(0, 0), (0, 1), (0, 2)]), None),
        ("side 2 of the last track", places(&[(0, 0), (1, 2)]), None),
        (
            "a gap on one side",
            places(&[(0, 0), (3, 0)]),
            small(2, 4, 1),
        ),
        (
            "gaps on two sides",
            places(&[(1, 1), (2, 0), (4, 0), (4, 1)]),
            small(4, 5, 2),
        ),
    ]
}

/// Tracks that rise, and tracks that do not.
fn orders() -> Vec<Edge> {
    vec![
        (
            "a rising cylinder with a falling side",
            places(&[(0, 1), (1, 0)]),
            small(2, 2, 2),
        ),
        ("equal tracks", places(&[(0, 0), (0, 0)]), None),
        ("falling cylinders", places(&[(1, 0), (0, 0)]), None),
        ("falling sides", places(&[(0, 1), (0, 0)]), None),
        (
            "a falling cylinder with a rising side",
            places(&[(1, 0), (0, 1)]),
            None,
        ),
        (
            "side behind side",
            places(&[(0, 0), (1, 0), (0, 1), (1, 1)]),
            None,
        ),
        (
            "equal tracks at the end",
            places(&[(0, 0), (1, 0), (1, 1), (1, 1)]),
            None,
        ),
        (
            "equal tracks that are not neighbours",
            places(&[(0, 0), (1, 0), (0, 0)]),
            None,
        ),
    ]
}

/// As many sectors, and as many bytes, as a store holds.
fn full() -> Vec<Edge> {
    let row = |tracks: Vec<Track>| {
        let numbered = (0..).zip(tracks);
        let numbered = numbered.map(|(cylinder, track)| Track { cylinder, ..track });
        numbered.collect()
    };
    let rows = row([vec![track(&[0; 29]); 70], vec![track(&[0; 18])]].concat());
    let bytes = row([vec![track(&[65_024]); 16], vec![track(&[8_192])]].concat());
    vec![
        ("2,048 sectors", rows, Some((256 + 71 * 256, 71, 1))),
        (
            "1,048,576 bytes",
            bytes,
            Some((256 + 17 * 256 + 1_048_576, 17, 1)),
        ),
    ]
}
