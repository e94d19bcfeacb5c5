//! The data-sheet machine, which is taken up from a sheet: a session begins with the Rust
//! machine. What the Rust does not have of it is told by the words of request 2026-06
//! (`oracle/datasheet.rs`).

use super::{A, B, Id, List, NONE, image, no_tracks, numbered, read, read_data, seek};
use super::{send, status, track, traffic, write_data};
use crate::datasheet::{Machine, is_other};
use crate::noise::Noise;
use crate::session::Call;
use crate::sheet::Sheet;

/// How many sessions of commands by noise there are, and how many turns each has.
const SESSIONS: u32 = 8;
const TURNS: usize = 150;

/// Adds the sessions of the data-sheet machine.
pub fn add(list: &mut List) {
    add_nine(list);
    add_ids(list);
    add_phases(list);
    add_changes(list);
    add_without_ids(list);
    add_invalid(list);
    add_interrupts(list);
    add_versions(list);
    add_noise(list);
}

/// A new controller of this machine is taken up.
pub(super) fn begin(machine: Machine) -> Call {
    let new = Sheet {
        machine,
        ..Sheet::default()
    };
    Call::Resume(new.bytes())
}

/// Adds a session of the data-sheet machine with these disks, the first of them in the
/// drive.
fn add_two(list: &mut List, name: &str, disks: [Vec<u8>; 2], calls: &[Call]) {
    let begin = [begin(Machine::DataSheet), A];
    list.add(
        format!("data-sheet-{name}"),
        disks,
        &[&begin, calls].concat(),
    );
}

/// Adds one with a small disk, and one without tracks beside.
fn add_one(list: &mut List, name: &str, calls: &[Call]) {
    let sectors = |c, h| [([c, h, 1, 0], 20), ([c, h, 2, 0], 30)];
    let places = [(2, 0), (0, 1), (2, 0), (1, 0)];
    let disk = image(places.map(|(c, h)| track(c, h, &sectors(c, h))));
    add_two(list, name, [disk, no_tracks()], calls);
}

/// Format of so many sectors.
fn format(c1: u8, n: u8, count: u8) -> Call {
    send(&[0x4d, c1, n, count, 0x52, 0xe5])
}

/// IDs of drive 0 and head 0 with these numbers.
fn ids(c: u8, numbers: impl IntoIterator<Item = u8>, n: u8) -> Vec<Id> {
    numbers.into_iter().map(|r| [c, 0, r, n]).collect()
}

/// Nine sectors C1 to C9, written, read and listed.
fn add_nine(list: &mut List) {
    let first = [2, 0, 0xc1, 2];
    let mut calls = vec![seek(2), format(0, 2, 9), status(1)];
    for id in ids(2, 0xc1..=0xc9, 2) {
        calls.extend([send(&id), status(1)]);
    }
    calls.extend([read(7), send(&write_data(0, first)), send(&[0x5a; 512])]);
    calls.extend([read(7), send(&read_data(0, first, 0xc9)), read(4_615)]);
    for _ in 0..10 {
        calls.extend([send(&[0x4a, 0]), read(7)]);
    }
    add_one(list, "format-nine", &calls);
}

/// Equal IDs, an N that is not the command's, IDs of elsewhere, both heads, and a track
/// that is there twice, in the middle, and at the end.
fn add_ids(list: &mut List) {
    let tracks = [
        ("equal-ids", 0, 0, 0, ids(0, [5; 4], 0)),
        (
            "other-n",
            1,
            0,
            1,
            vec![[1, 0, 1, 0], [1, 0, 2, 3], [1, 0, 3, 255]],
        ),
        ("n-over-3", 1, 4, 6, ids(1, [1, 2], 6)),
        (
            "other-place",
            2,
            0xfc,
            0,
            vec![[255; 4], [0; 4], [7, 9, 200, 1]],
        ),
        ("present-twice", 2, 0, 0, ids(2, [9, 8, 7], 0)),
        ("absent-at-the-end", 255, 0, 3, ids(255, [1], 3)),
    ];
    for (name, c, c1, n, ids) in tracks {
        let (first, last) = (ids[0], ids[ids.len() - 1]);
        let calls = [
            seek(c),
            format(c1, n, ids.len() as u8),
            send(&ids.concat()),
            read(8),
            send(&read_data(c1, first, first[2])),
            read(600),
            send(&write_data(c1, last)),
            send(&[0x33; 128]),
            send(&[0x44; 896]),
            read(8),
        ];
        add_one(list, &format!("format-{name}"), &calls);
    }
    let all: Vec<Id> = ids(0, 0..255, 0);
    let calls = [format(0, 0, 255), send(&all.concat()), read(8)];
    add_one(list, "format-255", &calls);
}

/// What the phase is beside: unread data, which no poll loses, an old reply, a seek that is
/// done; and the boxes and a sheet at every step.
fn add_phases(list: &mut List) {
    let mut calls = vec![
        send(&read_data(0, [0, 0, 1, 0], 1)),
        read(100),
        send(&[0x07, 0, 0x08]),
        format(0, 1, 2),
        status(9),
    ];
    for (place, id) in ids(0, [3, 4], 1).concat().into_iter().enumerate() {
        calls.extend([Call::Boxes, Call::Sheet, send(&[id]), status(1)]);
        if place == 5 {
            calls.push(read(30));
        }
    }
    calls.extend([Call::Sheet, status(4), read(40)]);
    let disks = [image([numbered(&[1])]), no_tracks()];
    add_two(list, "format-beside-data-and-reply", disks, &calls);
}

/// A disk that is out at the last ID byte, back by then, or another one.
fn add_changes(list: &mut List) {
    let ends = [
        ("out", vec![NONE]),
        ("out-and-back", vec![NONE, status(1), A]),
        ("another", vec![B]),
    ];
    for (name, change) in ends {
        let id = ids(1, [1, 2], 0).concat();
        let before = [seek(1), format(0, 0, 2), send(&id[..7])];
        let behind = [send(&id[7..]), status(1), read(8)];
        let calls = [&before[..], &change, &behind].concat();
        add_one(list, &format!("format-{name}"), &calls);
    }
}

/// No sectors, another drive, no disk: no phase.
fn add_without_ids(list: &mut List) {
    let calls = [
        seek(1),
        format(0, 2, 0),
        status(1),
        read(8),
        format(5, 2, 9),
        status(1),
        read(8),
        NONE,
        format(0, 2, 9),
        status(1),
        read(8),
    ];
    add_one(list, "format-without-ids", &calls);
}

/// Each invalid first byte replaces an unread reply; the same bytes in other places do not.
fn add_invalid(list: &mut List) {
    let other: Vec<u8> = (0..=255).filter(|&first| is_other(first)).collect();
    assert_eq!(other.len(), 187, "the other first bytes are 187");
    let each = other.iter().map(|&b| send(&[0x4a, 0, b]));
    let each = each.flat_map(|call| [call, status(1), read(2)]);
    add_one(list, "invalid", &each.collect::<Vec<Call>>());
    let calls = [
        send(&read_data(0, [0, 0, 1, 0], 1)),
        send(&[0]),
        status(1),
        Call::Boxes,
        read(130),
        send(&[0x03, 0, 0]),
        Call::Boxes,
        send(&write_data(0, [0, 0, 1, 0])),
        send(&[0; 128]),
        Call::Boxes,
    ];
    let disks = [image([numbered(&[1])]), no_tracks()];
    add_two(list, "invalid-beside-data", disks, &calls);
}

/// Sense Interrupt Status in every seek state, once and again.
fn add_interrupts(list: &mut List) {
    let sense = [send(&[0x08]), Call::Boxes, read(3)];
    let calls = [
        &sense[..],
        &[seek(7)],
        &sense,
        &sense,
        &[status(2), send(&[0x07, 0])],
        &sense,
        &[status(1)],
        &sense,
    ];
    add_one(list, "sense-interrupt", &calls.concat());
}

/// The machine that a sheet of each version gives, one behind the other.
fn add_versions(list: &mut List) {
    let new = Sheet::default();
    let sheets = [
        begin(Machine::DataSheet),
        Call::Resume(new.old_bytes()),
        begin(Machine::DataSheet),
        begin(Machine::Rust),
    ];
    let tried = [
        send(&[0x08]),
        read(3),
        send(&[0x4a, 1, 0]),
        Call::Boxes,
        Call::Sheet,
    ];
    let calls: Vec<Call> = sheets
        .into_iter()
        .flat_map(|sheet| [&[sheet][..], &tried].concat())
        .collect();
    add_one(list, "of-each-version", &calls);
}

/// Commands by noise. Where the boxes are shown a sheet is written too, so that what is
/// paused at any place goes on; at the end a new controller is taken up.
fn add_noise(list: &mut List) {
    for number in 0..SESSIONS {
        let mut noise = Noise::new(9_000 + number);
        let disks = [traffic::disk(&mut noise), traffic::disk(&mut noise)];
        let turns = (0..TURNS).flat_map(|_| traffic::turn(&mut noise));
        let shown = turns.flat_map(|call| match call {
            Call::Boxes => vec![Call::Boxes, Call::Sheet],
            other => vec![other],
        });
        let calls: Vec<Call> = shown.chain([begin(Machine::DataSheet)]).collect();
        add_two(list, &format!("traffic-{number:02}"), disks, &calls);
    }
}
