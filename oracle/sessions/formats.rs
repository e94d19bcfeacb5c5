//! Format.

use super::{List, NONE, format, image, no_tracks, numbered, read, read_data};
use super::{seek, send, sent, status, track};
use crate::session::Call;

/// Adds the sessions that format tracks.
pub fn add(list: &mut List) {
    add_tracks(list);
    add_counts(list);
    add_capacities(list);
    add_not_ready(list);
    let firsts = [0x0d, 0x4d, 0x8d, 0xcd, 0x2d, 0x6d];
    let calls = firsts.map(|first| sent(&[first, 0, 0, 1, first, first]));
    list.add_one("format-first-bytes", no_tracks(), &calls.concat());
    let no_ids = [
        send(&format(0, 0, 2)),
        status(1),
        send(&[7, 7, 7, 7]),
        Call::Boxes,
        read(7),
        status(1),
        Call::Boxes,
    ];
    list.add_one("format-takes-no-id-bytes", no_tracks(), &no_ids);
    let unread = [
        send(&read_data(0, [0, 0, 1, 0], 1)),
        read(1),
        send(&format(0, 1, 2)),
        Call::Boxes,
        read(127),
        read(8),
    ];
    list.add_one(
        "format-while-data-are-unread",
        image([numbered(&[1])]),
        &unread,
    );
}

/// Present and absent tracks of both heads, on sorted and unsorted disks.
fn add_tracks(list: &mut List) {
    let disk = || {
        let sectors = |c, h| [([c, h, 1, 0], 20), ([c, h, 2, 0], 30)];
        let places = [(2, 0), (0, 1), (2, 0), (1, 0)];
        image(places.map(|(c, h)| track(c, h, &sectors(c, h))))
    };
    let at = |c, c1| [seek(c), send(&format(c1, 0, 3)), Call::Boxes, read(7)];
    for (name, c, c1) in [
        ("present", 1, 0),
        ("present-twice", 2, 0),
        ("present-of-head-1", 0, 4),
        ("absent", 0, 0),
        ("absent-in-the-middle", 1, 4),
        ("absent-at-the-end", 255, 0),
        ("absent-of-head-1", 2, 0xfc),
    ] {
        list.add_one(format!("format-{name}"), disk(), &at(c, c1));
    }
    let rows = [(3, 0), (0, 0), (3, 4), (0, 0), (1, 4), (2, 0), (0, 4)];
    let calls = rows.map(|(c, c1)| at(c, c1)).concat();
    list.add_one("format-one-after-another", disk(), &calls);
    let calls = [at(0, 0), at(39, 0), at(40, 0), at(0, 4)].concat();
    list.add_fresh("format-a-fresh-disk", &calls);
}

/// Sectors 0 to 255, sizes beyond 3, every gap and filler.
fn add_counts(list: &mut List) {
    let disk = || image([numbered(&[1, 2])]);
    let first = |n| sent(&read_data(0, [0, 0, 1, n], 255));
    for count in [0, 1, 9, 255] {
        let calls = [
            &sent(&format(0, 0, count))[..],
            &first(0),
            &sent(&[0x0a, 0]),
        ]
        .concat();
        list.add_one(format!("format-{count}-sectors"), disk(), &calls);
    }
    for n in [3, 4, 5, 6, 7, 128, 255] {
        let calls = [&sent(&format(0, n, 2))[..], &[read(7)], &first(n)].concat();
        list.add_one(format!("format-n-{n}"), disk(), &calls);
    }
    let ends = [[0, 0], [255, 255], [0x2a, 0xe5], [1, 0x80]];
    let each = |[gap, filler]: [u8; 2]| {
        let formatted = send(&[0x4d, 0, 0, 1, gap, filler]);
        [&[formatted][..], &first(0)].concat()
    };
    for [gap, filler] in ends {
        let name = format!("format-gap-{gap}-filler-{filler}");
        list.add_one(name, disk(), &each([gap, filler]));
    }
}

/// As many tracks, sectors and bytes as there may be.
fn add_capacities(list: &mut List) {
    let each = |c| [0x0f, 0, c, 0x4d, 0, 0, 0, 0x2a, c];
    let tracks: Vec<u8> = (0..204).rev().flat_map(each).collect();
    let calls = [send(&tracks), Call::Boxes, seek(203)];
    let calls = [&calls[..], &sent(&format(0, 2, 9)), &sent(&[0x0a, 0])].concat();
    list.add_one("format-204-tracks", no_tracks(), &calls);
    for (name, n, rest) in [("2048-sectors", 0, 8), ("1048576-bytes", 3, 4)] {
        let number = if n == 0 { 8 } else { 4 };
        let full = (0..number).flat_map(|c| [seek(c), send(&format(0, n, 255))]);
        let full: Vec<Call> = full.collect();
        let last = [seek(8), send(&format(4, n, rest)), Call::Boxes];
        let back = [seek(2), send(&format(0, n, 255)), Call::Boxes];
        let look = sent(&read_data(0, [2, 0, 192, n], 255));
        let calls = [&full[..], &last, &back, &look].concat();
        list.add_one(format!("format-{name}"), no_tracks(), &calls);
    }
    let calls = [
        send(&format(0, 3, 255)),
        send(&read_data(0, [0, 0, 1, 3], 64)),
        Call::Boxes,
        read(65_535),
        read(1),
        read(8),
    ];
    list.add_one("format-and-read-65536-bytes", no_tracks(), &calls);
}

/// Another drive, or no disk.
fn add_not_ready(list: &mut List) {
    let units = [1, 2, 3, 5, 6, 7, 0xf9, 0xff];
    let calls = units.map(|c1| sent(&format(c1, 9, 3))).concat();
    let calls = [&calls[..], &[seek(17)], &calls].concat();
    list.add_fresh("format-not-ready-drive", &calls);
    let units = [0, 4, 1, 7, 0xf8];
    let calls = units.map(|c1| sent(&format(c1, 255, 3))).concat();
    let calls = [&calls[..], &[seek(17)], &calls].concat();
    list.add_none("format-not-ready-without-disk", &calls);
    let command = format(0, 0, 1);
    let calls = [send(&command[..5]), NONE, send(&command[5..]), read(8)];
    list.add_fresh("format-not-ready-at-its-last-byte", &calls);
}
