//! Disk changes: what is carried over, and a write that is in progress.

use super::{A, B, FRESH, Id, List, NONE, format, image, no_tracks, numbered, read};
use super::{read_data, seek, send, sent, status, track, write_data};
use crate::dsk::Track;
use crate::session::Call;

/// Adds the sessions with disk changes.
pub fn add(list: &mut List) {
    add_writes(list);
    add_places(list);
    add_carried(list);
    add_partial(list);
}

const ID: Id = [0, 0, 1, 0];

/// The first bytes of a write of 128, and the others, which all differ.
fn halves() -> [Call; 2] {
    let bytes: Vec<u8> = (0..128).map(|place| place * 5 + 2).collect();
    [send(&bytes[..50]), send(&bytes[50..])]
}

/// A write that has begun, the change, and the rest of the bytes.
fn write_over(change: &[Call]) -> Vec<Call> {
    let [first, rest] = halves();
    let begun = [send(&write_data(0, ID)), first, status(1)];
    let ended = [status(1), Call::Boxes, rest, status(1), read(8)];
    [&begun[..], change, &ended].concat()
}

/// The write ends on the disk that is in the drive then: on the first match, or
/// nowhere.
fn add_writes(list: &mut List) {
    let matches = |numbers: &[u8], length| {
        let sectors: Vec<_> = numbers.iter().map(|&r| ([0, 0, r, 0], length)).collect();
        track(0, 0, &sectors)
    };
    let others: [(&str, Vec<Track>); 8] = [
        ("a-match", vec![numbered(&[2, 1])]),
        ("a-shorter-match", vec![matches(&[2, 1, 3], 9)]),
        ("a-longer-match", vec![matches(&[2, 1, 3], 300)]),
        ("two-matches", vec![matches(&[2, 1, 3, 1], 20)]),
        ("two-tracks", vec![matches(&[1], 20), matches(&[1], 30)]),
        ("no-match", vec![numbered(&[2, 3])]),
        (
            "no-match-in-the-first",
            vec![numbered(&[2]), numbered(&[1])],
        ),
        ("another-side", vec![track(0, 1, &[(ID, 128)])]),
    ];
    for (name, tracks) in others {
        let disks = [image([numbered(&[1, 2])]), image(tracks)];
        let name = format!("change-in-a-write-to-{name}");
        list.add_two(name, disks, &write_over(&[B]));
    }
    let disks = || [image([numbered(&[1, 2])]), image([numbered(&[1, 2])])];
    let name = "change-in-a-write-to-no-disk";
    list.add_two(name, disks(), &write_over(&[NONE]));
    let name = "change-in-a-write-out-and-in";
    list.add_two(name, disks(), &write_over(&[NONE, A]));
    let name = "change-in-a-write-over-another-disk";
    list.add_two(name, disks(), &write_over(&[B, NONE, A]));
    let name = "change-in-a-write-to-a-disk-without-tracks";
    let disks = [image([numbered(&[1])]), no_tracks()];
    list.add_two(name, disks, &write_over(&[B]));
}

/// Only the disk at the last byte counts, and only then; a later write begins anew.
fn add_places(list: &mut List) {
    let disks = || [image([numbered(&[1, 2])]), image([numbered(&[1, 2])])];
    let bytes: Vec<u8> = (0..128).map(|place| place * 7 + 3).collect();
    let write = send(&write_data(0, ID));
    let (rest, last) = (send(&bytes[..127]), send(&bytes[127..]));
    let calls = [write.clone(), rest.clone(), B, last.clone(), A, read(8)];
    list.add_two("change-just-before-the-last-byte", disks(), &calls);
    let calls = [write.clone(), rest.clone(), last.clone(), B, read(8)];
    list.add_two("change-just-behind-the-last-byte", disks(), &calls);
    let calls = [write.clone(), B, rest.clone(), A, last.clone(), read(8)];
    list.add_two("change-and-back-before-the-last-byte", disks(), &calls);
    let again = [write.clone(), rest.clone(), NONE, last.clone(), read(8)];
    let calls = [&again[..], &[B], &again, &[A, write, rest, last]].concat();
    list.add_two("change-in-one-write-after-another", disks(), &calls);
}

/// Motor, cylinder, seek state, index, reply, data and lost count stay.
fn add_carried(list: &mut List) {
    let state = [
        Call::Motor(true),
        seek(1),
        send(&[0x0a, 0]),
        send(&[0x0a, 0]),
        send(&read_data(0, [1, 0, 1, 2], 1)),
        read(500),
        status(2),
        send(&[0x46, 0, 1]),
    ];
    let look = [Call::Ask, Call::Boxes];
    let end = [status(1), read(20), send(&[0, 1, 2, 1, 0, 0]), Call::Boxes];
    for (name, change) in [
        ("another-disk", vec![B]),
        ("no-disk", vec![NONE]),
        ("the-same-disk", vec![NONE, A]),
        ("a-disk-without-tracks", vec![NONE, B]),
    ] {
        let calls = [&state[..], &look, &change, &look, &end].concat();
        let other = if name == "another-disk" {
            FRESH
        } else {
            no_tracks()
        };
        list.add_two(
            format!("change-carries-over-to-{name}"),
            [FRESH, other],
            &calls,
        );
    }
    let seeks = [
        seek(2),
        B,
        status(1),
        send(&[0x08]),
        NONE,
        status(2),
        read(3),
    ];
    list.add_two("change-while-a-seek-runs", [FRESH, FRESH], &seeks);
    let seeks = [
        NONE,
        seek(2),
        A,
        send(&[0x08]),
        B,
        send(&[0x04, 0]),
        read(3),
    ];
    list.add_two("change-around-a-seek", [FRESH, FRESH], &seeks);
}

/// A command that is partly sent is obeyed on the disk that is in at its last byte.
fn add_partial(list: &mut List) {
    let disks = || {
        let b = track(0, 0, &[([0, 0, 1, 0], 7), ([0, 0, 4, 0], 5)]);
        [image([numbered(&[1, 2])]), image([b])]
    };
    let commands: [(&str, Vec<u8>); 5] = [
        ("read", read_data(0, ID, 4).to_vec()),
        ("write", write_data(0, [0, 0, 4, 0]).to_vec()),
        ("id", vec![0x0a, 0]),
        ("format", format(0, 0, 1).to_vec()),
        ("sense", vec![0x04, 0]),
    ];
    for (name, command) in commands {
        let (last, most) = command.split_last().expect("a command has bytes");
        let over = |change: &[Call]| {
            let last = sent(&[*last]);
            [&[A, send(most)], change, &last, &[read(20)]].concat()
        };
        let calls = [over(&[NONE]), over(&[]), over(&[B])].concat();
        list.add_two(format!("change-inside-a-{name}"), disks(), &calls);
    }
}
