//! The status: what it shows first, and its seek bit.

use super::{List, read, read_data, seek, send, send_times, status, write_data};
use crate::session::Call;

/// Adds the sessions that turn on the status.
pub fn add(list: &mut List) {
    add_order(list);
    add_seek(list);
    list.add_fresh(
        "status-does-not-take-the-reply",
        &[send(&[0x08]), status(20), Call::Boxes, read(2), status(2)],
    );
    list.add_fresh(
        "status-of-a-partial-command",
        &[
            send(&[0x46, 0, 0, 0]),
            status(20),
            Call::Boxes,
            send(&[0x41, 2, 0x41, 0x2a]),
            status(2),
            send(&[0xff]),
            status(2),
            read(7),
            status(2),
        ],
    );
}

/// A write comes before data, data before a reply, a reply before a partial
/// command.
fn add_order(list: &mut List) {
    let write = write_data(0, [0, 0, 2, 2]);
    list.add_fresh(
        "status-write-then-data-then-reply-then-command",
        &[
            send(&read_data(0, [0, 0, 1, 2], 1)),
            status(1),
            send(&write[..8]),
            status(1),
            send(&write[8..]),
            status(5),
            Call::Boxes,
            send_times(511, &[0x08]),
            status(1),
            send(&[0x08]),
            Call::Boxes,
            status(1),
            read(512),
            status(1),
            send(&[0x04]),
            status(1),
            read(7),
            status(1),
            send(&[0x00]),
            status(1),
            read(1),
            status(1),
        ],
    );
}

/// The seek bit in every phase, while the seek runs and when it is done.
fn add_seek(list: &mut List) {
    let phases = |before: &[Call]| {
        [
            [before, &[status(3)]].concat(),
            [before, &[send(&[0x04]), status(3), send(&[0x00])]].concat(),
            [&[read(1)], before, &[status(3), read(1)]].concat(),
            [
                &[send(&read_data(0, [5, 0, 1, 2], 1))],
                before,
                &[status(3), read(511), read(7)],
            ]
            .concat(),
            [
                before,
                &[
                    send(&write_data(0, [5, 0, 1, 2])),
                    status(3),
                    send_times(512, &[0x11]),
                    read(7),
                    status(3),
                ],
            ]
            .concat(),
        ]
        .concat()
    };
    let running = phases(&[seek(5)]);
    list.add_fresh("status-while-a-seek-runs", &running);
    let done = phases(&[seek(5), send(&[0x08])]);
    list.add_fresh("status-when-a-seek-is-done", &done);
    let done = phases(&[seek(5), send(&[0x08]), read(2)]);
    list.add_fresh("status-when-a-seek-is-done-and-told", &done);
    list.add_fresh(
        "status-done-turns-idle-once",
        &[
            seek(3),
            status(2),
            send(&[0x08]),
            Call::Boxes,
            status(1),
            Call::Boxes,
            status(1),
            send(&[0x08]),
            status(2),
            read(2),
            seek(4),
            send(&[0x08]),
            send(&[0x08]),
            Call::Boxes,
            status(2),
            read(3),
        ],
    );
}
