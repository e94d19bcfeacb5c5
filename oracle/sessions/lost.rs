//! Data that are lost because the status is read instead.

use super::{A, B, Id, List, NONE, format, image, no_tracks, read, read_data};
use super::{seek, send, send_times, status, track, write_data};
use crate::session::Call;

/// Adds the sessions that turn on the lost count.
pub fn add(list: &mut List) {
    add_counts(list);
    add_kept(list);
    add_zeroed(list);
    list.add_fresh(
        "lost-512-bytes-by-1536-polls",
        &[
            send(&read_data(0, [0, 0, 1, 2], 1)),
            status(1_535),
            Call::Boxes,
            status(1),
            status(1),
            read(7),
        ],
    );
    list.add_one(
        "lost-65536-bytes-by-196608-polls",
        no_tracks(),
        &[
            send(&format(0, 3, 64)),
            send(&read_data(0, [0, 0, 1, 3], 64)),
            status(65_535),
            status(65_535),
            status(65_535),
            status(2),
            Call::Boxes,
            status(1),
            status(1),
            read(8),
        ],
    );
}

/// Sector r stores r bytes; sector 9 stores none.
fn small() -> Vec<u8> {
    let sectors = [1, 2, 3, 4, 5, 6, 128].map(|r| (id(r), r.into()));
    image([track(0, 0, &[sectors.as_slice(), &[(id(9), 0)]].concat())])
}

fn id(r: u8) -> Id {
    [0, 0, r, 0]
}

/// Read Data of the sector with this number.
fn read_r(r: u8) -> Call {
    send(&read_data(0, id(r), r))
}

/// With k bytes unread and a lost count of l, 3k - l polls empty the data.
fn add_counts(list: &mut List) {
    for k in [1, 2, 3, 5] {
        let with = |l: u16| {
            [
                read_r(6),
                status(l),
                read_r(k),
                Call::Boxes,
                status(3 * u16::from(k) - l - 1),
                Call::Boxes,
                status(1),
                Call::Boxes,
                status(1),
                read(8),
            ]
        };
        let calls = [0, 1, 2].map(with).concat();
        list.add_one(format!("lost-3k-minus-l-polls-for-k-{k}"), small(), &calls);
    }
}

/// What does not zero the count: two polls before, one that drops a byte behind.
fn add_kept(list: &mut List) {
    let lost = |calls: &[Call]| {
        let before = [read_r(6), status(2)];
        let behind = [Call::Boxes, status(1), Call::Boxes, status(6)];
        [before.as_slice(), calls, &behind, &[read(12)]].concat()
    };
    let commands: [&[u8]; 12] = [
        &[0x03, 0x11, 0x22],
        &[0x04, 0],
        &[0x07, 0],
        &[0x08],
        &[0x10],
        &[0x00],
        &[0x0a, 0],
        &[0x0a, 1],
        &[0x46, 0, 0, 0, 7, 0, 7, 0x2a, 0xff],
        &[0x46, 1, 0, 0, 1, 0, 1, 0x2a, 0xff],
        &[0x45, 0, 0, 0, 7, 0, 7, 0x2a, 0xff],
        &[0x4d, 4, 0, 2, 0x2a, 0x77],
    ];
    let calls = commands.map(|command| lost(&[send(command)])).concat();
    list.add_one("lost-count-survives-commands", small(), &calls);
    let calls = [1, 3, 6].map(|r| lost(&[read_r(r)])).concat();
    list.add_one("lost-count-survives-the-next-read", small(), &calls);
    let changes = [&[B][..], &[NONE], &[NONE, A], &[Call::Motor(true)]];
    let calls = changes.map(|change| [&lost(change), &[A][..]].concat());
    list.add_one("lost-count-survives-changes", small(), &calls.concat());
    let write = [send(&write_data(0, id(128))), status(20), Call::Boxes];
    let calls = lost(&[&write[..], &[send_times(128, &[0x33])]].concat());
    list.add_one("lost-count-rests-while-writing", small(), &calls);
    let calls = [
        lost(&[read_r(9), status(5), Call::Boxes, read_r(3)]),
        lost(&[read_r(9), read(1), Call::Boxes, read_r(3)]),
    ];
    list.add_one("lost-count-outlives-the-data", small(), &calls.concat());
}

/// A read of the data port zeroes the count, of the reply or of nothing too.
fn add_zeroed(list: &mut List) {
    let calls = [
        read_r(6),
        status(2),
        read(1),
        status(2),
        read(1),
        status(2),
        read(1),
        status(3),
        read(1),
        status(2),
        read(1),
        status(2),
        read(7),
    ];
    list.add_one("lost-count-zeroed-by-reads", small(), &calls);
    let calls = [
        read_r(1),
        status(1),
        seek(1),
        read_r(1),
        status(1),
        Call::Boxes,
        seek(0),
        read(1),
        Call::Boxes,
        read_r(2),
        status(3),
        read(9),
    ];
    list.add_one("lost-count-and-seeks", small(), &calls);
}
