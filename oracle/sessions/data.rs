//! The data port: data first, then the reply, then 0; and what leaves unread data
//! as they are.

use super::{A, B, FRESH, List, NONE, format, image, numbered, read, read_data};
use super::{seek, send, send_times, status, track, write_data};
use crate::session::Call;

/// Adds the sessions that turn on the data port.
pub fn add(list: &mut List) {
    let six = image([track(0, 0, &[([0, 0, 1, 0], 6), ([0, 0, 2, 0], 3)])]);
    let one = send(&read_data(0, [0, 0, 1, 0], 1));
    let calls = [one.clone(), read(6), read(7), read(3), status(1), read(1)];
    list.add_one("data-then-reply-then-zero", six.clone(), &calls);
    let two = send(&read_data(0, [0, 0, 2, 0], 2));
    let calls = [one.clone(), read(2), two, read(3), read(7), read(1)];
    list.add_one("data-replaced-by-the-next-read", six.clone(), &calls);
    let calls = [one.clone(), read(2), one.clone(), read(13), read(1)];
    list.add_one("data-read-again-from-the-first-byte", six.clone(), &calls);
    let calls = [one, read(2), send(&[0x08]), read(4), read(2), read(1)];
    list.add_one("data-before-the-reply-of-another-command", six, &calls);
    add_kept(list);
    add_left_by_reads(list);
    list.add_none(
        "data-port-of-a-new-controller",
        &[read(20), status(3), read(1)],
    );
}

/// Data read earlier stay as they were, whatever is then done to the disk.
fn add_kept(list: &mut List) {
    let disk = || image([numbered(&[1, 2, 3]), track(1, 0, &[([1, 0, 1, 0], 9)])]);
    let save = |r| {
        let write = write_data(0, [0, 0, r, 0]);
        [send(&write), send_times(16, b"whatever")]
    };
    let changes = [
        ("saved", save(1).to_vec()),
        ("saved-elsewhere", save(3).to_vec()),
        ("formatted", vec![send(&format(0, 0, 3)), send(&[0x08])]),
        ("formatted-longer", vec![send(&format(0, 3, 9))]),
        ("formatted-away", vec![send(&format(0, 0, 0))]),
        ("a-track-is-added", vec![send(&format(4, 2, 4))]),
        ("moved", vec![seek(1), Call::Boxes, seek(0)]),
        ("changed", vec![B]),
        ("changed-and-formatted", vec![B, send(&format(0, 1, 5))]),
        ("taken-out", vec![NONE]),
        ("taken-out-and-in", vec![NONE, A]),
    ];
    let joined = read_data(0, [0, 0, 1, 0], 2);
    for (name, change) in changes {
        let before = [send(&joined), read(3)];
        let behind = [status(1), Call::Boxes, read(125), read(128), read(8)];
        let again = [send(&joined), Call::Boxes];
        let calls = [&before[..], &change, &behind, &again].concat();
        let name = format!("data-kept-while-{name}");
        list.add_two(name, [disk(), FRESH], &calls);
    }
}

/// A read that finds nothing, or no disk, leaves the old data unread.
fn add_left_by_reads(list: &mut List) {
    let disk = || image([track(0, 0, &[([0, 0, 1, 0], 6)])]);
    let first = send(&read_data(0, [0, 0, 1, 0], 1));
    let left = |other: &[Call]| {
        let before = [first.clone(), read(1)];
        [&before[..], other, &[Call::Boxes, read(13)]].concat()
    };
    let missing = [
        send(&read_data(0, [0, 0, 2, 0], 2)),
        send(&read_data(4, [0, 0, 1, 0], 1)),
        send(&[0x4c, 0, 0, 0, 0, 0, 1, 0x2a, 0xff]),
    ];
    let calls = missing.map(|call| left(&[call])).concat();
    list.add_one("data-left-by-missing-reads", disk(), &calls);
    let not_ready = [
        left(&[send(&read_data(1, [0, 0, 1, 0], 1))]),
        left(&[send(&read_data(6, [0, 0, 1, 0], 1))]),
        left(&[NONE, first.clone(), A]),
    ];
    let calls = not_ready.concat();
    list.add_one("data-left-by-reads-that-are-not-ready", disk(), &calls);
}
