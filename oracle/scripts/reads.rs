//! Reads: which sectors are joined, which status they give, and whether they fit
//! the transfer room.

use super::{AMPLE, List, format, image, no_tracks, read, save, track, track_of};
use crate::dsk::{Sector, Track};
use crate::script::{Id, Operation, Place};

/// Where most reads go.
const PLACE: Place = [0, 2];

/// Adds the scripts that read sectors.
pub fn add(list: &mut List) {
    add_numbers(list);
    add_joins(list);
    add_lengths(list);
    add_status(list);
    add_first_matches(list);
    add_missing(list);
    add_rooms(list);
    add_changed(list);
}

/// A track with these numbers, each sector as long as its size by n.
fn numbered<const N: usize>(numbers: [u8; N]) -> Vec<u8> {
    image([track_of(numbers.map(|r| (number(r), 128)))])
}

/// The ID of the sector with this number.
fn number(r: u8) -> Id {
    [2, 0, r, 0]
}

/// A read from sector `r` to `eot`.
fn from_to((r, eot): (u8, u8)) -> Operation {
    read(PLACE, number(r), eot, AMPLE)
}

/// The last number below, at and above the first, and the greatest numbers.
fn add_numbers(list: &mut List) {
    let reads = [
        (2, 0),
        (2, 1),
        (2, 2),
        (2, 3),
        (2, 4),
        (2, 255),
        (1, 2),
        (4, 4),
    ];
    list.add("read-eot", numbered([1, 2, 3, 4]), &reads.map(from_to));
    let reads = [
        (255, 255),
        (255, 254),
        (255, 0),
        (254, 255),
        (0, 255),
        (0, 0),
        (253, 255),
    ];
    list.add(
        "read-greatest-numbers",
        numbered([254, 255, 0]),
        &reads.map(from_to),
    );
    let reads = [(1, 1), (1, 0), (1, 12), (9, 9), (65, 65)];
    let reads = reads.map(|(r, eot)| read([0, 0], [0, 0, r, 2], eot, AMPLE));
    list.add_fresh("read-fresh-disk", &reads);
}

/// Sectors are joined by their numbers until one is not there.
fn add_joins(list: &mut List) {
    let reads = [(1, 2), (1, 3), (1, 6), (4, 5), (4, 6), (3, 6)];
    list.add(
        "read-stops-at-a-gap",
        numbered([1, 2, 4, 5]),
        &reads.map(from_to),
    );
    let reads = [(1, 4), (1, 3), (2, 4), (3, 4), (4, 4)];
    list.add(
        "read-numbers-out-of-order",
        numbered([3, 1, 4, 2]),
        &reads.map(from_to),
    );
    for (name, field) in [("c", 0), ("h", 1), ("n", 3)] {
        let mut other = number(2);
        other[field] ^= 4;
        let ids = [number(1), other, number(3)].map(|id| (id, 128));
        let reads = [from_to((1, 3)), read(PLACE, other, 3, AMPLE)];
        let name = format!("read-stops-where-{name}-differs");
        list.add(name, image([track_of(ids)]), &reads);
    }
}

/// Stored lengths that are not the size by n.
fn add_lengths(list: &mut List) {
    let lengths = [(1, 127), (2, 129), (3, 128), (4, 0), (5, 256), (6, 1)];
    let stored = || image([track_of(lengths.map(|(r, length)| (number(r), length)))]);
    let single = [1, 2, 3, 4, 5, 6].map(|r| from_to((r, r)));
    list.add("read-short-and-long", stored(), &single);
    let joined = [
        (1, 2),
        (1, 3),
        (2, 3),
        (3, 4),
        (4, 5),
        (3, 5),
        (4, 6),
        (1, 6),
    ];
    list.add("read-short-and-long-joined", stored(), &joined.map(from_to));
    let sizes = [
        (0, 128),
        (1, 256),
        (2, 512),
        (3, 1_024),
        (4, 128),
        (255, 1_024),
        (7, 128),
    ];
    let ids = sizes.map(|(n, length)| ([2, 0, 1, n], length));
    let reads = sizes.map(|(n, _)| read(PLACE, [2, 0, 1, n], 1, AMPLE));
    list.add("read-sizes-by-n", image([track_of(ids)]), &reads);
    let empty = image([track_of([1, 2].map(|r| (number(r), 0)))]);
    list.add("read-no-bytes", empty, &[(1, 1), (1, 2)].map(from_to));
}

/// The status is that of the first sector, with one bit added: one for a sector
/// of its size by n, another for one that is not.
fn add_status(list: &mut List) {
    let bits = || {
        [0].into_iter()
            .chain((0..8).map(|bit| 1 << bit))
            .chain([255])
    };
    let pairs = bits().map(|st1| (st1, 0)).chain(bits().map(|st2| (0, st2)));
    let pairs = (1..).zip(pairs.chain([(255, 255), (1, 254)]));
    let (sectors, reads): (Vec<_>, Vec<_>) = pairs
        .flat_map(|(r, status)| [([2, 0, r, 0], status), ([2, 0, r, 1], status)])
        .map(|(id, (st1, st2))| {
            let sector = Sector::stored(id, 128).status(st1, st2);
            (sector, read(PLACE, id, id[2], AMPLE))
        })
        .unzip();
    list.add(
        "read-status-bits",
        image([Track::new(2, 0, sectors)]),
        &reads,
    );
    let sectors = [(1, 2, 4), (2, 255, 255), (3, 0, 0)];
    let sectors = sectors.map(|(r, st1, st2)| Sector::stored(number(r), 128).status(st1, st2));
    let image = image([Track::new(2, 0, sectors.to_vec())]);
    list.add(
        "read-status-of-the-first",
        image,
        &[(1, 3), (2, 3), (3, 3)].map(from_to),
    );
}

/// Of equal IDs and equal tracks the first is read.
fn add_first_matches(list: &mut List) {
    let ids = [(1, 10), (2, 20), (1, 30), (2, 40), (3, 50), (3, 60)];
    let twice = image([track_of(ids.map(|(r, length)| (number(r), length)))]);
    let reads = [(1, 1), (2, 2), (1, 3), (3, 3)];
    list.add("read-first-of-equal-ids", twice, &reads.map(from_to));
    let tracks = image([track([0, 2], 1), track([1, 2], 3), track([0, 2], 3)]);
    let reads = [(1, 1), (1, 3), (2, 3)].map(from_to);
    let side = read([1, 2], [2, 1, 1, 0], 3, AMPLE);
    let reads = [reads.as_slice(), &[side]].concat();
    list.add("read-first-of-equal-tracks", tracks, &reads);
}

/// What is not there is missing, whatever the room.
fn add_missing(list: &mut List) {
    let tracks = image([track([0, 2], 2), track([0, 3], 0), track([2, 2], 2)]);
    let others = [[1, 2, 1, 0], [2, 1, 1, 0], [2, 0, 3, 0], [2, 0, 1, 4]];
    let others = others.map(|id| read(PLACE, id, 9, 0));
    let places = [[1, 2], [0, 3], [0, 4], [1, 0]];
    let places = places.map(|place| read(place, number(1), 1, AMPLE));
    let of_side_2 = read(PLACE, [2, 2, 1, 0], 1, AMPLE);
    let reads = [others.as_slice(), &places, &[of_side_2]].concat();
    list.add("read-missing", tracks, &reads);
    list.add("read-without-tracks", no_tracks(), &[from_to((1, 1))]);
}

/// The transfer room: exactly full, one byte short, 0, and over 65,536.
fn add_rooms(list: &mut List) {
    let rooms = [
        (1, 128),
        (1, 127),
        (2, 256),
        (2, 255),
        (2, 129),
        (3, 384),
        (3, 383),
        (1, 0),
    ];
    let reads = rooms.map(|(eot, room)| read(PLACE, number(1), eot, room));
    list.add("read-room", numbered([1, 2, 3]), &reads);
    let empty = image([track_of([(number(1), 0), (number(2), 1)])]);
    let rooms = [(1, 1, 0), (1, 2, 0), (1, 2, 1), (3, 3, 0)];
    let reads = rooms.map(|(r, eot, room)| read(PLACE, number(r), eot, room));
    list.add("read-room-0", empty, &reads);
    let rooms = [65_535, 65_536, 65_537, 65_792, 1_048_576, u32::MAX];
    let reads = rooms.map(|room| read(PLACE, number(1), 2, room));
    let saved = |length| [[save(PLACE, number(2), length)].as_slice(), &reads].concat();
    let totals = [0, 1, 2].map(saved).concat();
    let operations = [[save(PLACE, number(1), 65_535)].as_slice(), &totals].concat();
    list.add("read-room-over-65536", numbered([1, 2]), &operations);
    let sizes = [
        (0, 255),
        (1, 255),
        (2, 128),
        (2, 129),
        (2, 255),
        (3, 64),
        (3, 65),
    ];
    let reads = sizes.map(|(n, eot)| read([0, n], [n, 0, 1, n], eot, AMPLE));
    let tracks = [0, 1, 2, 3].map(|n| format([0, n], n, 255));
    let operations = [tracks.as_slice(), &reads].concat();
    list.add("read-room-for-255-sectors", no_tracks(), &operations);
}

/// What was saved or formatted is read.
fn add_changed(list: &mut List) {
    let operations = [
        from_to((1, 3)),
        save(PLACE, number(2), 200),
        from_to((1, 3)),
        save(PLACE, number(3), 56),
        from_to((1, 3)),
        from_to((2, 3)),
        save(PLACE, number(1), 0),
        from_to((1, 1)),
        from_to((1, 3)),
    ];
    list.add("read-behind-saves", numbered([1, 2, 3]), &operations);
    let operations = [
        format(PLACE, 0, 2),
        from_to((1, 4)),
        from_to((3, 4)),
        format([1, 2], 1, 2),
        read([1, 2], [2, 1, 1, 1], 2, 511),
        read([1, 2], [2, 1, 1, 1], 2, 512),
        save([1, 2], [2, 1, 2, 1], 255),
        read([1, 2], [2, 1, 1, 1], 2, 511),
        read([1, 2], [2, 1, 2, 1], 2, 511),
        format([1, 2], 0, 0),
        read([1, 2], [2, 1, 1, 1], 2, 512),
    ];
    list.add("read-behind-formats", numbered([1, 2, 3, 4]), &operations);
}
