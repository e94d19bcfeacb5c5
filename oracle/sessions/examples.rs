//! The sessions of document 01 that go through the ports.

use super::{List, format, read, read_data, send, status};
use crate::session::Call;

/// Adds the sessions of document 01.
pub fn add(list: &mut List) {
    list.add_none("example-new-controller", &[status(1), read(1)]);
    list.add_fresh("example-new-controller-with-disk", &[status(1), read(1)]);
    list.add_fresh(
        "example-sense-drive",
        &[send(&[0x04]), status(1), send(&[0x00]), status(1), read(1)],
    );
    list.add_fresh(
        "example-sense-drive-1-head-1",
        &[send(&[0x04, 0x05]), read(1)],
    );
    list.add_fresh(
        "example-seek-and-sense-interrupt",
        &[
            send(&[0x0f, 0x00, 0x05]),
            status(1),
            send(&[0x08]),
            status(1),
            read(2),
            send(&[0x08]),
            read(2),
        ],
    );
    list.add_fresh("example-sizes-by-n", &[0, 3, 4, 255].map(size).concat());
    let missing = read_data(0, [0, 0, 0x41, 2], 0x41);
    list.add_fresh("example-read-missing", &[send(&missing), read(7)]);
    let first = read_data(0, [0, 0, 1, 2], 1);
    list.add_none("example-read-without-disk", &[send(&first), read(7)]);
    list.add_fresh(
        "example-format",
        &[send(&[0x4d, 0x00, 0x01, 0x03, 0x2a, 0xaa]), read(7)],
    );
    for (name, eot, bytes) in [
        ("example-read-1-to-1", 1, 512),
        ("example-read-1-to-0", 0, 512),
        ("example-read-1-to-12", 12, 4_608),
    ] {
        let command = read_data(0, [0, 0, 1, 2], eot);
        list.add_fresh(name, &[send(&command), read(4), read(bytes - 4), read(7)]);
    }
    saves(list);
}

/// Saves to a fresh disk, as in `crates/saves/proofs/Witness.antt`: one that is read back,
/// two to one address, and two to two addresses in either order.
fn saves(list: &mut List) {
    let back = [send(&read_data(0, [7, 0, 3, 2], 3)), read(512), read(7)];
    let calls = [&save(3, 0xaa)[..], &back].concat();
    list.add_fresh("example-save-and-read-back", &calls);
    for (name, first, second) in [
        ("example-save-twice", (3, 0xaa), (3, 0x55)),
        ("example-save-two-addresses", (3, 0xaa), (4, 0x55)),
        ("example-save-in-the-other-order", (4, 0x55), (3, 0xaa)),
    ] {
        let calls = [save(first.0, first.1), save(second.0, second.1)].concat();
        list.add_fresh(name, &calls);
    }
}

/// A save to cylinder 7: a Seek, a Write Data and 512 bytes, with reads between them.
fn save(r: u8, byte: u8) -> [Call; 6] {
    [
        send(&[0x0f, 0x00, 0x07]),
        status(2),
        send(&[0x45, 0x00, 0x07, 0x00, r, 0x02, r, 0x2a, 0xff]),
        read(1),
        Call::Send {
            times: 512,
            bytes: vec![byte],
        },
        read(7),
    ]
}

/// A sector of size n is formatted and read: the look tells how many bytes.
fn size(n: u8) -> [Call; 5] {
    [
        send(&format(0, n, 1)),
        send(&read_data(0, [0, 0, 1, n], 1)),
        Call::Boxes,
        read(1_024),
        read(7),
    ]
}
