//! Write Data.

use super::{Id, List, NONE, format, image, no_tracks, numbered, read, read_data};
use super::{seek, send, send_times, sent, status, track, write_data};
use crate::dsk::{Sector, Track};
use crate::session::Call;

/// Adds the sessions that write sectors.
pub fn add(list: &mut List) {
    add_sizes(list);
    add_phase(list);
    add_lengths(list);
    add_first_bytes(list);
    add_missing(list);
    add_not_ready(list);
    add_first_matches(list);
}

/// 128 bytes that all differ.
fn bytes() -> Vec<u8> {
    (0..128).map(|place| place * 3 + 1).collect()
}

/// A whole write of 128 bytes, its reply, and the sector read back.
fn written(id: Id) -> Vec<Call> {
    vec![
        send(&write_data(0, id)),
        send(&bytes()),
        Call::Boxes,
        read(8),
        send(&read_data(0, id, id[2])),
        Call::Boxes,
    ]
}

/// How many bytes a write takes: the size by n.
fn add_sizes(list: &mut List) {
    for n in [0, 1, 2, 3, 4, 7, 255] {
        let size: u16 = 128 << (n & 3);
        let id = [0, 0, 2, n];
        let calls = [
            send(&format(0, n, 3)),
            send(&write_data(0, id)),
            Call::Boxes,
            send_times(size / 16 - 1, b"sixteen bytes..!"),
            send(b"but the last.. "),
            status(2),
            Call::Boxes,
            send(b"?"),
            status(2),
            read(8),
            send(&read_data(0, id, 2)),
            Call::Boxes,
            read(size),
            read(8),
        ];
        list.add_one(format!("write-size-of-n-{n}"), no_tracks(), &calls);
    }
}

/// While a write is in progress every byte is data, the old reply can be read, and
/// old data too.
fn add_phase(list: &mut List) {
    let disk = || image([numbered(&[1, 2])]);
    let write = send(&write_data(0, [0, 0, 1, 0]));
    let calls = [
        send(&[0x10]),
        write.clone(),
        status(2),
        Call::Boxes,
        read(3),
        send_times(32, &[0x08, 0x10, 0x46, 0x45]),
        status(1),
        read(8),
    ];
    list.add_one("write-keeps-the-old-reply", disk(), &calls);
    let calls = [
        send(&read_data(0, [0, 0, 2, 0], 2)),
        read(100),
        write.clone(),
        read(10),
        status(4),
        send_times(64, &[1, 2]),
        Call::Boxes,
        read(18),
        read(8),
    ];
    list.add_one("write-while-data-are-unread", disk(), &calls);
    let calls = [
        send(&[0x45, 0, 0, 0, 1, 0, 9, 0x2a, 0xff]),
        send(&bytes()),
        status(1),
        send(&[0x08]),
        read(3),
        send(&[0x04]),
        status(1),
        Call::Boxes,
    ];
    list.add_one("write-one-sector-whatever-eot", disk(), &calls);
    let calls = [
        seek(1),
        seek(0),
        write,
        status(1),
        send_times(128, &[0]),
        Call::Ask,
        status(1),
        send(&[0x08]),
        read(3),
    ];
    list.add_one("write-while-a-seek-runs", disk(), &calls);
}

/// The new length is the size by n, whatever was stored; the status stays.
fn add_lengths(list: &mut List) {
    let lengths = [(1, 10), (2, 300), (3, 128), (4, 0), (5, 256)];
    let sectors = lengths.map(|(r, length)| ([0, 0, r, 0], length));
    let disk = || image([track(0, 0, &sectors), track(1, 0, &sectors)]);
    for r in 1..=5 {
        let calls = written([0, 0, r, 0]);
        list.add_one(format!("write-new-length-of-sector-{r}"), disk(), &calls);
    }
    let calls = [1, 2, 3, 4, 5].map(|r| written([0, 0, r, 0])).concat();
    list.add_one("write-new-lengths-of-all", disk(), &calls);
    let marked = [(0x20, 0x20), (0x80, 0x40), (255, 255)];
    let marked = (1..).zip(marked);
    let marked = marked.map(|(r, (st1, st2))| Sector::stored([0, 0, r, 0], 20).status(st1, st2));
    let disk = image([Track::new(0, 0, marked.collect())]);
    let calls = [1, 2, 3].map(|r| written([0, 0, r, 0])).concat();
    list.add_one("write-keeps-the-status", disk, &calls);
}

/// Multitrack and density bits change nothing; with the skip bit it is no write.
fn add_first_bytes(list: &mut List) {
    for first in [0x05, 0x45, 0x85, 0xc5, 0x25, 0x65, 0xa5, 0xe5] {
        let calls = [
            send(&[first, 0, 0, 0, 1, 0, 1, 0x2a, 0xff]),
            status(1),
            Call::Boxes,
            send_times(128, &[0x00]),
            status(1),
            read(8),
        ];
        let disk = image([numbered(&[1])]);
        list.add_one(format!("write-first-byte-{first:03}"), disk, &calls);
    }
    let deleted =
        [0x09, 0x49, 0x89, 0xc9].map(|first| sent(&[first, 0, 0, 0, 1, 0, 1, 0x2a, 0xff]));
    let disk = image([numbered(&[1])]);
    list.add_one("write-deleted-does-nothing", disk, &deleted.concat());
}

/// A write to what is not there: the reply comes at once, and no data phase.
fn add_missing(list: &mut List) {
    let disk = || image([numbered(&[1]), track(1, 2, &[([1, 2, 1, 0], 9)])]);
    let ids = [[1, 0, 1, 0], [0, 1, 1, 0], [0, 0, 2, 0], [0, 0, 1, 4]];
    let ids = ids.map(|id| sent(&write_data(0, id))).concat();
    let units = [4, 0xfc, 0x0c].map(|c1| sent(&write_data(c1, [0, 0, 1, 0])));
    let elsewhere = sent(&write_data(0, [1, 2, 1, 0]));
    let calls = [
        &ids[..],
        &units.concat(),
        &[seek(1)],
        &elsewhere,
        &[read(8)],
    ]
    .concat();
    list.add_one("write-missing", disk(), &calls);
}

/// Another drive, or no disk.
fn add_not_ready(list: &mut List) {
    let units = [1, 2, 3, 5, 6, 7, 0xf9, 0xff];
    let calls = units.map(|c1| sent(&write_data(c1, [0, 0, 1, 2]))).concat();
    list.add_fresh("write-not-ready-drive", &calls);
    let units = [0, 4, 1, 7, 0xf8];
    let calls = units.map(|c1| sent(&write_data(c1, [0, 0, 1, 2]))).concat();
    list.add_none("write-not-ready-without-disk", &calls);
    let write = write_data(0, [0, 0, 1, 2]);
    let calls = [
        send(&write[..8]),
        NONE,
        send(&write[8..]),
        read(8),
        status(1),
    ];
    list.add_fresh("write-not-ready-at-its-last-byte", &calls);
}

/// Of equal IDs and equal tracks the first takes the bytes; the head counts.
fn add_first_matches(list: &mut List) {
    let sectors = [1, 2, 1, 2].map(|r| ([0, 0, r, 0], u16::from(10 * r)));
    let disk = image([track(0, 0, &sectors)]);
    let calls = [1, 2].map(|r| written([0, 0, r, 0])).concat();
    list.add_one("write-first-of-equal-ids", disk, &calls);
    let tracks = [
        track(0, 0, &sectors[..1]),
        track(0, 1, &sectors),
        track(0, 0, &sectors),
    ];
    let calls = [1, 2].map(|r| written([0, 0, r, 0])).concat();
    let head_1 = [
        send(&write_data(0xfc, [0, 0, 2, 0])),
        Call::Boxes,
        send(&bytes()),
        Call::Boxes,
    ];
    let calls = [&calls[..], &head_1].concat();
    list.add_one("write-first-of-equal-tracks", image(tracks), &calls);
}
