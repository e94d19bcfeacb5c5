//! Which first byte begins which command, how long it is, and the commands that
//! do not look at a disk.

use super::{A, List, NONE, image, read, read_data, seek, send, status, track};
use crate::session::Call;

/// Adds the sessions that turn on the first byte, and the small commands.
pub fn add(list: &mut List) {
    add_lengths(list);
    add_without_effect(list);
    add_sense_drive(list);
    add_seeks(list);
    add_interrupts(list);
    let versions = (0..8).flat_map(|high| [send(&[0x10 | high << 5]), read(2)]);
    let versions: Vec<Call> = versions.collect();
    list.add_none("command-version", &versions);
    let motor = [
        Call::Motor(true),
        Call::Ask,
        send(&[0x04, 0]),
        read(1),
        Call::Motor(false),
        Call::Ask,
        send(&[0x04, 0]),
        read(1),
        send(&[0x46, 0, 0, 0, 1]),
        Call::Motor(true),
        send(&[2, 1, 0x2a, 0xff]),
        Call::Motor(false),
        Call::Boxes,
        read(519),
        Call::Motor(true),
        Call::Motor(true),
        Call::Ask,
    ];
    list.add_fresh("command-whatever-the-motor-does", &motor);
}

/// Each first byte, and eight zeros behind it: the status after each shows how
/// long the command is.
fn add_lengths(list: &mut List) {
    for high in 0..16 {
        let calls: Vec<Call> = (0..16).flat_map(|low| command(high << 4 | low)).collect();
        list.add_fresh(format!("command-lengths-of-{:03}-on", high << 4), &calls);
    }
}

fn command(first: u8) -> Vec<Call> {
    let zero = [send(&[0]), status(1)];
    let mut calls = vec![send(&[first]), status(1)];
    calls.extend([(); 8].iter().flat_map(|()| zero.clone()));
    calls.extend([Call::Boxes, read(8)]);
    calls
}

/// Whether the byte begins a command of one byte that does nothing.
fn is_other(first: u8) -> bool {
    let whole = matches!(first, 0x03 | 0x04 | 0x07 | 0x08 | 0x0f);
    let low_5 = matches!(first & 0x1f, 0x10 | 0x06 | 0x0c | 0x11 | 0x19 | 0x1d);
    let low_6 = matches!(first & 0x3f, 0x05 | 0x09);
    let low_7 = matches!(first & 0xbf, 0x0a | 0x0d);
    !(whole || low_5 || low_6 || low_7 || first & 0x9f == 0x02)
}

/// What keeps data and reply: other first bytes, Specify, and the commands of nine
/// bytes that are not served.
fn add_without_effect(list: &mut List) {
    let disk = || image([track(0, 0, &[([0, 0, 1, 0], 6)])]);
    let other: Vec<u8> = (0..=255).filter(|&first| is_other(first)).collect();
    assert_eq!(other.len(), 187, "the other first bytes are 187");
    let unserved = [
        0x09, 0x49, 0x89, 0xc9, 0x02, 0x22, 0x42, 0x62, 0x11, 0x31, 0x51, 0x71, 0x91, 0xb1, 0xd1,
        0xf1, 0x19, 0x39, 0x59, 0x79, 0x99, 0xb9, 0xd9, 0xf9, 0x1d, 0x3d, 0x5d, 0x7d, 0x9d, 0xbd,
        0xdd, 0xfd,
    ];
    let unserved: Vec<u8> = unserved
        .iter()
        .flat_map(|&first| [first, 0, 0, 0, 1, 0, 1, 0x2a, 0xff])
        .collect();
    let kept = [
        ("other-bytes", other),
        ("specify", vec![0x03, 0xa1, 0x03]),
        ("what-is-not-served", unserved),
    ];
    for (name, bytes) in kept {
        let calls = [
            send(&read_data(0, [0, 0, 1, 0], 1)),
            read(1),
            status(1),
            send(&bytes),
            Call::Boxes,
            status(1),
            read(8),
            send(&bytes),
            status(1),
            Call::Boxes,
            read(6),
        ];
        list.add_one(format!("command-reply-kept-by-{name}"), disk(), &calls);
    }
}

/// Sense Drive: every drive and head, at cylinder 0 and elsewhere, with a disk and
/// without.
fn add_sense_drive(list: &mut List) {
    let units = [0, 1, 2, 3, 4, 5, 6, 7, 0xf8, 0xfc, 0xff, 0x10];
    let sense = || units.iter().flat_map(|&c1| [send(&[0x04, c1]), read(2)]);
    let moved: Vec<Call> = sense().chain([seek(1)]).chain(sense()).collect();
    list.add_fresh("command-sense-drive", &moved);
    list.add_none("command-sense-drive-without-disk", &moved);
    let calls = [
        send(&[0x04]),
        NONE,
        send(&[0]),
        read(1),
        send(&[0x04]),
        A,
        send(&[0]),
        read(1),
    ];
    list.add_fresh("command-sense-drive-at-its-last-byte", &calls);
}

/// Recalibrate and Seek: drive 0 moves and has its reply emptied, other drives do
/// nothing.
fn add_seeks(list: &mut List) {
    let calls: Vec<Call> = [0, 1, 2, 3, 4, 5, 6, 7, 0xf8, 0xfd]
        .into_iter()
        .flat_map(|c1| {
            [
                seek(9),
                send(&[0x08]),
                status(1),
                read(1),
                send(&[0x07, c1]),
                Call::Ask,
                Call::Boxes,
                status(1),
                seek(9),
                send(&[0x08]),
                status(1),
                read(1),
                send(&[0x0f, c1, 200]),
                Call::Ask,
                Call::Boxes,
                status(1),
                read(2),
            ]
        })
        .collect();
    list.add_fresh("command-seek-and-recalibrate-of-each-drive", &calls);
    list.add_none("command-seek-without-disk", &calls);
    let cylinders = [0, 1, 39, 40, 255];
    let calls: Vec<Call> = cylinders
        .into_iter()
        .flat_map(|c| {
            let command = read_data(0, [c, 0, 1, 2], 1);
            [
                seek(c),
                Call::Ask,
                send(&command),
                Call::Boxes,
                send(&[0x08]),
            ]
        })
        .collect();
    list.add_fresh("command-seek-to-any-cylinder", &calls);
}

/// Sense Interrupt in every seek state, with and without polls between.
fn add_interrupts(list: &mut List) {
    let sense = [send(&[0x08]), Call::Boxes];
    let poll = [status(1), Call::Boxes];
    let rows: [&[&[Call]]; 6] = [
        &[&sense],
        &[&sense, &sense],
        &[&poll, &sense],
        &[&sense, &poll, &sense],
        &[&sense, &sense, &poll, &sense],
        &[&sense, &poll, &poll, &sense],
    ];
    let mut calls = [&sense[..], &[read(2)]].concat();
    for row in rows {
        calls.push(seek(7));
        calls.extend(row.concat());
        calls.push(read(3));
    }
    list.add_fresh("command-sense-interrupt-in-each-state", &calls);
    let twice = [
        seek(3),
        send(&[0x08]),
        seek(4),
        send(&[0x08]),
        read(2),
        send(&[0x07, 0]),
        send(&[0x07, 0]),
        send(&[0x08]),
        read(2),
        send(&[0x08]),
        read(2),
    ];
    list.add_fresh("command-seek-starts-again-when-done", &twice);
}
