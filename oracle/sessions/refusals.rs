//! Sessions that document 01 refuses in part. The Rust knows no refusals: what
//! they show is written by hand, in oracle/refusals.txt.

use super::datasheets::begin;
use super::{A, B, FRESH, List, NONE, image, no_tracks, read, read_data, seek};
use super::{send, send_times, status, track, write_data};
use crate::datasheet::Machine;
use crate::session::Call;

/// Adds the sessions with refusals.
pub fn add(list: &mut List) {
    add_transfer(list);
    add_data_room(list);
    add_sectors(list);
    add_tracks(list);
    add_broken_stores(list);
    add_broken_store_in_a_write(list);
    add_data_sheet(list);
    add_reply(list);
    add_command(list);
    add_data(list);
    add_write(list);
    add_orders(list);
}

fn lend_table(length: u32) -> Call {
    Call::Lend { buffer: 1, length }
}

fn lend_data(length: u32) -> Call {
    Call::Lend { buffer: 2, length }
}

fn lend_transfer(length: u32) -> Call {
    Call::Lend { buffer: 3, length }
}

/// A number of tracks that no table has, or one that it may have.
fn tracks(byte: u8) -> Call {
    Call::Table { place: 0, byte }
}

fn number(which: u16, value: u32) -> Call {
    Call::Number { which, value }
}

/// Format of cylinder 0 and head 0.
fn format(n: u8, count: u8) -> Call {
    send(&[0x4d, 0, n, count, 0x2a, 0xe5])
}

/// Read Data from sector 1 on.
fn read_to(eot: u8, n: u8) -> Call {
    send(&read_data(0, [0, 0, 1, n], eot))
}

/// A disk with a sector 1 that stores no bytes.
fn without_bytes() -> Vec<u8> {
    image([track(0, 0, &[([0, 0, 1, 0], 0)])])
}

/// Refusal 9: the byte may be sent again with more room, and data and reply stay.
fn add_transfer(list: &mut List) {
    let last = send(&[0xff]);
    let calls = [
        lend_transfer(512),
        read_to(1, 2),
        read(512),
        read(7),
        read_to(2, 2),
        status(1),
        lend_transfer(1_023),
        last.clone(),
        lend_transfer(1_024),
        last.clone(),
        status(1),
        read(1_024),
        read(7),
    ];
    list.add_fresh("refusal-9-transfer-room-512", &calls);
    let calls = [
        lend_transfer(512),
        read_to(1, 2),
        read(510),
        read_to(9, 2),
        read(5),
        Call::Boxes,
        NONE,
        last.clone(),
        read(8),
    ];
    list.add_fresh("refusal-9-leaves-data-and-reply", &calls);
    let calls = [
        lend_transfer(131_072),
        format(3, 65),
        read_to(64, 3),
        read(65_535),
        read(1),
        read(7),
        read_to(65, 3),
        NONE,
        last,
        A,
        format(0, 0),
    ];
    list.add_one("refusal-9-over-65536-bytes", no_tracks(), &calls);
    let calls = [
        lend_transfer(0),
        read_to(1, 0),
        read(7),
        read_to(2, 0),
        read(7),
        read_to(1, 1),
        read(7),
        send(&read_data(1, [0, 0, 1, 0], 1)),
        read(7),
    ];
    list.add_one(
        "refusal-9-not-for-what-has-no-bytes",
        without_bytes(),
        &calls,
    );
}

/// Refusal 8, of a format and of a write.
fn add_data_room(list: &mut List) {
    let calls = [
        lend_data(256),
        format(0, 2),
        read(7),
        format(0, 3),
        status(1),
        lend_data(383),
        send(&[0xe5]),
        lend_data(384),
        send(&[0xe5]),
        read(7),
        format(0, 1),
        send(&[0x4d, 4, 1, 1, 0x2a, 0xaa]),
        send(&[0x4d, 4, 1, 2, 0x2a, 0xbb]),
        NONE,
        send(&[0xbb]),
        read(8),
    ];
    list.add_one("refusal-8-format", no_tracks(), &calls);
    let calls = [
        lend_data(127),
        send(&write_data(0, [0, 0, 1, 0])),
        send_times(127, &[0x5a]),
        send(&[0x5a]),
        status(1),
        send(&[0x5b]),
        Call::Boxes,
        lend_data(128),
        send(&[0x5a]),
        status(1),
        read(8),
    ];
    list.add_one("refusal-8-write", without_bytes(), &calls);
}

/// Refusal 7: 2,048 sectors and one more, which a format of none makes room for.
fn add_sectors(list: &mut List) {
    let full = (0..8).flat_map(|c| [seek(c), format(0, 255)]);
    let none = (0..8).flat_map(|c| [seek(c), format(0, 0)]);
    let edge = [
        seek(8),
        format(0, 8),
        read(7),
        format(0, 9),
        NONE,
        send(&[0xe5]),
        A,
        format(0, 8),
        seek(9),
        format(0, 0),
        read(7),
        format(0, 1),
        NONE,
        send(&[0xe5]),
        A,
    ];
    let calls: Vec<Call> = full.chain(edge).chain(none).collect();
    list.add_one("refusal-7-2049-sectors", no_tracks(), &calls);
}

/// Refusal 6: 204 tracks and one more.
fn add_tracks(list: &mut List) {
    let each = |c| [0x0f, 0, c, 0x4d, 0, 0, 0, 0x2a, 0xe5];
    let most: Vec<u8> = (0..204).flat_map(each).collect();
    let calls = [
        send(&most),
        seek(204),
        format(0, 0),
        status(1),
        Call::Boxes,
        NONE,
        send(&[0xe5]),
        read(7),
        A,
        seek(203),
        format(0, 1),
        read(7),
        format(0, 0),
    ];
    list.add_one("refusal-6-205-tracks", no_tracks(), &calls);
}

/// Refusal 2: only commands for drive 0, with a disk in, look at the store.
fn add_broken_stores(list: &mut List) {
    let commands: [&[u8]; 5] = [
        &[0x46, 0, 0, 0, 1, 2, 1, 0x2a, 0xff],
        &[0x4c, 0, 0, 0, 1, 2, 1, 0x2a, 0xff],
        &[0x45, 0, 0, 0, 1, 2, 1, 0x2a, 0xff],
        &[0x0a, 0],
        &[0x4d, 0, 2, 9, 0x2a, 0xe5],
    ];
    let each = |command: &[u8]| {
        let last = send(&command[command.len() - 1..]);
        let looked = [send(command), status(1), last.clone()];
        let not = [NONE, last, read(7), A];
        [&looked[..], &not].concat()
    };
    let others = [
        send(&[0x04, 0]),
        read(1),
        send(&[0x46, 1, 0, 0, 1, 2, 1, 0x2a, 0xff]),
        read(7),
        send(&[0x0a, 2]),
        read(7),
        seek(1),
        seek(0),
        send(&[0x08]),
        read(2),
    ];
    let mended = [send(&commands[3][..1]), tracks(40), send(&[0]), read(7)];
    let calls = [
        &[tracks(205)],
        &commands.map(each).concat()[..],
        &others,
        &mended,
    ];
    list.add_fresh("refusal-2-broken-table", &calls.concat());
    let look = send(&[0]);
    let calls = [
        format(0, 1),
        lend_table(17_608),
        send(&[0x0a, 0]),
        lend_table(0),
        look.clone(),
        lend_table(17_609),
        look.clone(),
        read(7),
        lend_data(127),
        send(&[0x0a, 0]),
        lend_data(128),
        look,
        read(7),
    ];
    list.add_one("refusal-2-short-buffers", no_tracks(), &calls);
}

/// Refusal 2 of the last byte of a write; the others are held, whatever the store.
fn add_broken_store_in_a_write(list: &mut List) {
    let calls = [
        format(0, 1),
        send(&write_data(0, [0, 0, 1, 0])),
        tracks(205),
        send_times(127, &[0x5a]),
        send(&[0x5a]),
        status(1),
        tracks(1),
        send(&[0x5a]),
        status(1),
        read(7),
        send(&write_data(0, [0, 0, 1, 0])),
        tracks(205),
        send_times(127, &[0xa5]),
        NONE,
        send(&[0xa5]),
        read(7),
        tracks(1),
    ];
    list.add_one("refusal-2-at-the-end-of-a-write", no_tracks(), &calls);
}

/// Refusals 2 and 8 of a Format of the data-sheet machine: at its last ID byte, which may
/// be sent again, or where it has none at the last byte of the command.
fn add_data_sheet(list: &mut List) {
    let calls = [
        begin(Machine::DataSheet),
        A,
        lend_data(127),
        tracks(205),
        format(0, 1),
        status(1),
        send(&[0, 0, 1]),
        send(&[0]),
        tracks(0),
        send(&[0]),
        lend_data(128),
        status(1),
        send(&[0]),
        status(1),
        read(8),
        tracks(205),
        format(0, 0),
        tracks(1),
        send(&[0xe5]),
        read(8),
    ];
    let disks = [no_tracks(), no_tracks()];
    list.add("refusal-2-and-8-at-the-last-id", disks, &calls);
}

/// Every call, which all refuse.
fn all_calls() -> [Call; 8] {
    [
        status(1),
        read(1),
        send(&[0x08]),
        Call::Motor(true),
        NONE,
        B,
        Call::Ask,
        status(3),
    ]
}

/// Refusal 1: a reply that is read past its end, and one that is too long.
fn add_reply(list: &mut List) {
    let calls = |broken: Call, mended: Call| {
        let before = [send(&[0x08]), read(1), broken];
        [&before[..], &all_calls(), &[mended, status(1), read(2)]].concat()
    };
    let place = calls(number(1, 3), number(1, 1));
    list.add_fresh("refusal-1-reply-place-past-fill", &place);
    let fill = calls(number(2, 8), number(2, 2));
    list.add_fresh("refusal-1-reply-over-7-bytes", &fill);
}

/// Refusal 1: a command that is whole, and a lost count of 3.
fn add_command(list: &mut List) {
    let calls = [
        &[send(&[0x04]), number(3, 2)],
        &all_calls()[..],
        &[number(3, 1), status(1), send(&[0]), read(1)],
    ];
    list.add_fresh("refusal-1-command-as-long-as-its-length", &calls.concat());
    let calls = [
        &[number(4, 3)],
        &all_calls()[..],
        &[number(4, 2), status(1), read(1)],
    ];
    list.add_fresh("refusal-1-lost-count-over-2", &calls.concat());
}

/// Refusal 1: data that are read past their end, and data beyond the room, which
/// only calls that are lent the transfer buffer see.
fn add_data(list: &mut List) {
    let calls = [
        &[read_to(1, 2), read(2), number(5, 513)],
        &all_calls()[..],
        &[number(5, 511), read(8)],
    ];
    list.add_fresh("refusal-1-data-place-past-fill", &calls.concat());
    let calls = [
        &[read_to(1, 2), read(511), lend_transfer(511)],
        &all_calls()[..],
        &[A, lend_transfer(512), read(1), read(7)],
    ];
    list.add_fresh("refusal-1-data-fill-beyond-the-room", &calls.concat());
    let calls = [
        read_to(1, 2),
        read(511),
        lend_transfer(131_072),
        number(6, 65_537),
        status(1),
        read(1),
        send(&[0x08]),
        number(6, 512),
        read(1),
        read(7),
    ];
    list.add_fresh("refusal-1-data-fill-over-65536", &calls);
}

/// Refusal 1: a write in progress that is whole, or for another drive. Without a
/// write in progress neither counts.
fn add_write(list: &mut List) {
    for (name, which, broken) in [
        ("write-fill-at-its-size", 7, 128),
        ("write-for-another-drive", 8, 5),
    ] {
        let before = [
            format(0, 1),
            number(which, broken),
            status(1),
            send(&write_data(0, [0, 0, 1, 0])),
            number(which, broken),
        ];
        let behind = [
            number(which, 0),
            status(1),
            send_times(128, &[0x5a]),
            status(1),
            read(7),
        ];
        let calls = [&before[..], &all_calls(), &behind].concat();
        list.add_one(format!("refusal-1-{name}"), no_tracks(), &calls);
    }
}

/// Several at once: the first of 1, 2, 6, 8 and 9 counts.
fn add_orders(list: &mut List) {
    let calls = [
        lend_transfer(511),
        tracks(205),
        send(&[0x46, 0, 0, 0, 1, 2, 1, 0x2a]),
        number(4, 3),
        send(&[0xff]),
        number(4, 0),
        send(&[0xff]),
        tracks(40),
        send(&[0xff]),
        lend_transfer(512),
        send(&[0xff]),
        read(512),
        read(7),
    ];
    list.add_fresh("refusal-1-before-2-before-9", &calls);
    let each = |c| [0x0f, 0, c, 0x4d, 0, 0, 0, 0x2a, 0xe5];
    let most: Vec<u8> = (0..204).flat_map(each).collect();
    let calls = [
        send(&most),
        lend_data(0),
        seek(204),
        format(0, 1),
        lend_data(127),
        send(&[0xe5]),
        NONE,
        send(&[0xe5]),
        read(7),
        A,
        seek(203),
        format(0, 1),
        lend_data(128),
        send(&[0xe5]),
        read(7),
        format(0, 0),
    ];
    list.add_two("refusal-6-before-8", [no_tracks(), FRESH], &calls);
}
