//! Read Data and Read Deleted: which sectors, which reply.

use super::{Id, List, NONE, image, numbered, read, read_data, seek, send, sent, track};
use crate::dsk::{Sector, Track};
use crate::session::Call;

/// Adds the sessions that read sectors.
pub fn add(list: &mut List) {
    add_numbers(list);
    add_joins(list);
    add_lengths(list);
    add_status(list);
    add_first_bytes(list);
    add_missing(list);
    add_not_ready(list);
    add_places(list);
}

/// Read Data at drive 0 and head 0, and a look at what it leaves.
fn look(id: Id, eot: u8) -> [Call; 2] {
    sent(&read_data(0, id, eot))
}

/// The same for the sector with this number.
fn from_to((r, eot): (u8, u8)) -> [Call; 2] {
    look([0, 0, r, 0], eot)
}

/// The reply has eot as R, whatever sector was read last.
fn add_numbers(list: &mut List) {
    let fresh = [
        (1, 1),
        (1, 2),
        (1, 9),
        (1, 10),
        (1, 255),
        (9, 9),
        (9, 10),
        (9, 255),
        (5, 0),
        (5, 4),
        (5, 5),
    ];
    let calls = fresh.map(|(r, eot)| look([0, 0, r, 2], eot)).concat();
    list.add_fresh("read-r-is-eot", &calls);
    let lower = [(3, 0), (3, 1), (3, 2), (3, 3), (255, 0), (255, 254)];
    let calls = [&lower.map(from_to).concat()[..], &[read(128), read(7)]].concat();
    let disk = || image([numbered(&[1, 2, 3, 255])]);
    list.add_one("read-eot-below-r", disk(), &calls);
    let greatest = [
        (255, 255),
        (254, 255),
        (253, 255),
        (0, 255),
        (0, 0),
        (0, 1),
        (252, 254),
    ];
    let calls = greatest.map(from_to).concat();
    let disk = image([numbered(&[254, 255, 0, 252, 253])]);
    list.add_one("read-greatest-numbers", disk, &calls);
}

/// Sectors r + 1 to eot are joined until one is not there.
fn add_joins(list: &mut List) {
    let pairs = [(1, 2), (1, 3), (1, 4), (1, 6), (4, 5), (4, 6), (3, 6)];
    let calls = [&pairs.map(from_to).concat()[..], &[read(256), read(7)]].concat();
    let disk = image([numbered(&[1, 2, 4, 5])]);
    list.add_one("read-stops-at-a-missing-number", disk, &calls);
    let pairs = [(1, 4), (1, 3), (2, 4), (3, 4), (4, 4)];
    let calls = [&pairs.map(from_to).concat()[..], &[read(128), read(7)]].concat();
    let disk = image([numbered(&[3, 1, 4, 2])]);
    list.add_one("read-numbers-out-of-order", disk, &calls);
    for (name, field) in [("c", 0), ("h", 1), ("n", 3)] {
        let mut other = [0, 0, 2, 0];
        other[field] ^= 4;
        let sectors = [[0, 0, 1, 0], other, [0, 0, 3, 0]].map(|id| (id, 5));
        let calls = [look([0, 0, 1, 0], 3), look(other, 3)].concat();
        let name = format!("read-stops-where-{name}-differs");
        list.add_one(name, image([track(0, 0, &sectors)]), &calls);
    }
    let twice = [(1, 10), (2, 20), (1, 30), (2, 40), (3, 5), (3, 6)];
    let twice = twice.map(|(r, length)| ([0, 0, r, 0], length));
    let calls = [(1, 1), (2, 2), (1, 3), (3, 3)].map(from_to).concat();
    list.add_one(
        "read-first-of-equal-ids",
        image([track(0, 0, &twice)]),
        &calls,
    );
    let tracks = [
        track(0, 0, &twice[..1]),
        track(0, 1, &twice[1..2]),
        track(0, 0, &twice),
    ];
    let calls = [(1, 1), (2, 2), (1, 3)].map(from_to).concat();
    let head_1 = sent(&read_data(4, [0, 0, 2, 0], 3));
    let calls = [&calls[..], &head_1].concat();
    list.add_one("read-first-of-equal-tracks", image(tracks), &calls);
}

/// st1 gets 0x80 where the total is that of the sizes by n, else 0x10.
fn add_lengths(list: &mut List) {
    let lengths = [
        (1, 127),
        (2, 129),
        (3, 128),
        (4, 0),
        (5, 256),
        (6, 1),
        (7, 384),
    ];
    let sectors = lengths.map(|(r, length)| ([0, 0, r, 0], length));
    let disk = || image([track(0, 0, &sectors)]);
    let calls = [1, 2, 3, 4, 5, 6, 7].map(|r| from_to((r, r))).concat();
    list.add_one("read-short-long-and-weak", disk(), &calls);
    let pairs = [
        (1, 2),
        (1, 3),
        (2, 3),
        (3, 4),
        (4, 5),
        (3, 5),
        (4, 6),
        (1, 7),
        (6, 7),
    ];
    list.add_one("read-lengths-joined", disk(), &pairs.map(from_to).concat());
    let sizes = [
        (0, 128),
        (1, 256),
        (2, 512),
        (3, 1_024),
        (4, 128),
        (255, 1_024),
        (6, 512),
        (2, 256),
    ];
    let ids = sizes.map(|(n, length)| ([0, 0, 1, n], length));
    let calls = sizes.map(|(n, _)| look([0, 0, 1, n], 1)).concat();
    list.add_one("read-sizes-by-n", image([track(0, 0, &ids)]), &calls);
}

/// Every bit of st1 and st2 is kept; Read Deleted flips one; the first sector's
/// count.
fn add_status(list: &mut List) {
    let bits = (0..8).map(|bit| 1u8 << bit).chain([0, 255]);
    let bits: Vec<u8> = bits.collect();
    let pairs = bits.iter().map(|&bit| (bit, 0));
    let pairs = pairs
        .chain(bits.iter().map(|&bit| (0, bit)))
        .chain([(1, 191)]);
    let sector = |(r, (st1, st2))| {
        let id = |n| [0, 0, r, n];
        [0, 1].map(|n| Sector::stored(id(n), 128).status(st1, st2))
    };
    let sectors: Vec<Sector> = (1..).zip(pairs).flat_map(sector).collect();
    let count = sectors.len() as u8 / 2;
    let disk = || image([Track::new(0, 0, sectors.clone())]);
    for (name, first) in [("read", 0x46), ("read-deleted", 0x4c)] {
        for (end, n) in [("end", 0), ("overrun", 1)] {
            let calls = (1..=count).flat_map(|r| sent(&[first, 0, 0, 0, r, n, r, 0x2a, 0xff]));
            let calls: Vec<Call> = calls.collect();
            list.add_one(format!("{name}-status-bits-and-{end}"), disk(), &calls);
        }
    }
    let sectors = [(1, 2, 4), (2, 255, 255), (3, 0, 0)];
    let sectors = sectors.map(|(r, st1, st2)| Sector::stored([0, 0, r, 0], 128).status(st1, st2));
    let disk = image([Track::new(0, 0, sectors.to_vec())]);
    let calls = [(1, 3), (2, 3), (3, 3)].map(from_to).concat();
    list.add_one("read-status-of-the-first", disk, &calls);
}

/// Multitrack, density and skip bits change nothing; gap and data length neither.
fn add_first_bytes(list: &mut List) {
    let disk = || {
        let sector = Sector::stored([0, 0, 1, 0], 7).status(0, 0x40);
        image([Track::new(0, 0, vec![sector])])
    };
    let firsts = (0..8).flat_map(|high| [0x06 | high << 5, 0x0c | high << 5]);
    let calls = firsts.flat_map(|first: u8| sent(&[first, 0, 0, 0, 1, 0, 1, 0x2a, 0xff]));
    let calls: Vec<Call> = calls.collect();
    list.add_one("read-every-first-byte", disk(), &calls);
    let ends = [[0, 0], [0xff, 0x00], [0x01, 0x80], [0xff, 0xff]];
    let calls = ends.map(|[gap, length]| sent(&[0x46, 0, 0, 0, 1, 0, 1, gap, length]));
    list.add_one("read-whatever-gap-and-length", disk(), &calls.concat());
}

/// What is not there: a field of the ID, the track, a track of another side.
fn add_missing(list: &mut List) {
    let sectors = [([2, 0, 1, 0], 4)];
    let tracks = [
        track(2, 0, &sectors),
        track(3, 0, &[]),
        track(2, 2, &[([2, 2, 1, 0], 4)]),
    ];
    let disk = || image(tracks.clone());
    let ids = [
        [2, 0, 1, 0],
        [1, 0, 1, 0],
        [2, 1, 1, 0],
        [2, 0, 2, 0],
        [2, 0, 1, 4],
        [2, 2, 1, 0],
        [255; 4],
    ];
    let looks = ids.map(|id| look(id, 9)).concat();
    let found = look([2, 0, 1, 0], 1);
    let places = [0, 3, 4, 255].map(|c| [&[seek(c)][..], &found].concat());
    let head_1 = sent(&read_data(4, [2, 0, 1, 0], 1));
    let calls = [&[seek(2)], &looks[..], &head_1, &places.concat()].concat();
    list.add_one("read-missing", disk(), &calls);
    let calls = [look([0; 4], 0), sent(&read_data(4, [255; 4], 255))].concat();
    list.add_one("read-without-tracks", super::no_tracks(), &calls);
    let missing = [4, 0xf8, 0xfc, 0x10].map(|c1| sent(&read_data(c1, [7, 6, 5, 4], 3)));
    list.add_one("read-missing-by-unit", disk(), &missing.concat());
}

/// Another drive, or no disk.
fn add_not_ready(list: &mut List) {
    let units = [1, 2, 3, 5, 6, 7, 0xf9, 0xff];
    let reads = |c1| [0x46, 0x4c].map(|first| sent(&[first, c1, 9, 8, 7, 6, 5, 4, 3]).to_vec());
    let calls: Vec<Call> = units.into_iter().flat_map(reads).flatten().collect();
    list.add_fresh("read-not-ready-drive", &calls);
    let units = [0, 4, 1, 7, 0xf8];
    let calls: Vec<Call> = units.into_iter().flat_map(reads).flatten().collect();
    list.add_none("read-not-ready-without-disk", &calls);
    let first = read_data(0, [0, 0, 1, 2], 1);
    let calls = [send(&first[..8]), NONE, send(&first[8..]), read(8)];
    list.add_fresh("read-not-ready-at-its-last-byte", &calls);
}

/// The head, and an ID that names another place than its track's.
fn add_places(list: &mut List) {
    let tracks = [
        track(0, 0, &[([0, 0, 1, 0], 3)]),
        track(0, 1, &[([0, 1, 1, 0], 4), ([9, 8, 7, 6], 5)]),
        track(1, 0, &[([0, 0, 1, 0], 6)]),
    ];
    let units = [0, 4, 0xf8, 0xfc, 0x3c];
    let ids = [[0, 0, 1, 0], [0, 1, 1, 0], [9, 8, 7, 6]];
    let at = |c1| ids.map(|id| sent(&read_data(c1, id, id[2]))).concat();
    let all: Vec<Call> = units.into_iter().flat_map(at).collect();
    let calls = [&all[..], &[seek(1)], &all].concat();
    list.add_one("read-head-and-cylinder", image(tracks), &calls);
}
