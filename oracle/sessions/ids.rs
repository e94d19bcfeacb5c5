//! Read ID: whose turn it is.

use super::{A, B, FRESH, List, NONE, format, image, no_tracks, numbered, read, seek};
use super::{send, send_times, sent, status, track};
use crate::session::Call;

const READ_ID: [u8; 2] = [0x0a, 0];

/// Adds the sessions that read IDs.
pub fn add(list: &mut List) {
    let disk = || image([numbered(&[3, 1, 2]), track(0, 1, &[([9, 8, 7, 6], 1)])]);
    let calls = [(); 8].map(|()| sent(&READ_ID)).concat();
    list.add_one("id-index-modulo-sectors", disk(), &calls);
    let units = [0, 4, 0xf8, 0xfc, 4, 0, 0];
    let calls = units.map(|c1| sent(&[0x4a, c1])).concat();
    list.add_one("id-one-index-for-all-tracks", disk(), &calls);
    let firsts = [0x0a, 0x4a, 0x8a, 0xca, 0x2a, 0x6a, 0x0a];
    let calls = firsts.map(|first| sent(&[first, 0])).concat();
    list.add_one("id-first-bytes", disk(), &calls);
    add_missing(list);
    add_wrap(list);
    add_not_ready(list);
    let calls = [
        sent(&READ_ID).to_vec(),
        vec![B],
        sent(&READ_ID).to_vec(),
        vec![NONE, send(&READ_ID), A],
        sent(&READ_ID).to_vec(),
        vec![send(&READ_ID[..1]), B, send(&READ_ID[1..])],
    ];
    list.add_two("id-index-over-a-change", [disk(), FRESH], &calls.concat());
    let wide = [send(&format(0, 0, 255)), send_times(253, &READ_ID)];
    let last = [(); 4].map(|()| sent(&READ_ID)).concat();
    let calls = [&wide[..], &last].concat();
    list.add_one("id-of-255-sectors", no_tracks(), &calls);
    let replaced = [send(&[0x08]), read(1), send(&READ_ID), read(8), status(1)];
    list.add_one("id-replaces-an-unread-reply", disk(), &replaced);
}

/// A missing track and one without sectors are missing; the index rises.
fn add_missing(list: &mut List) {
    let tracks = [numbered(&[1, 2, 3, 4, 5]), track(1, 0, &[])];
    let places = [0, 1, 0, 2, 0].map(|c| [&[seek(c)][..], &sent(&READ_ID)].concat());
    let head_1 = [sent(&[0x0a, 4]), sent(&READ_ID)].concat();
    let calls = [&places.concat()[..], &[seek(0)], &head_1].concat();
    list.add_one("id-index-rises-at-missing-tracks", image(tracks), &calls);
    let calls = [sent(&READ_ID), sent(&[0x4a, 4])].concat();
    list.add_one("id-without-tracks", no_tracks(), &calls);
}

/// After 65,535 comes 0.
fn add_wrap(list: &mut List) {
    let disk = || image([numbered(&[1, 2, 3, 4, 5, 6, 7])]);
    let last = [(); 4].map(|()| sent(&READ_ID)).concat();
    let calls = [&[send_times(65_534, &READ_ID)], &last[..]].concat();
    list.add_one("id-index-wraps-after-65535", disk(), &calls);
    let missing = [seek(40), send_times(65_535, &READ_ID), seek(0)];
    let calls = [&missing[..], &last].concat();
    list.add_one("id-index-wraps-at-missing-tracks", disk(), &calls);
}

/// Another drive or no disk: a reply only where none is unread, and the index
/// stays.
fn add_not_ready(list: &mut List) {
    let units = [1, 2, 3, 5, 6, 7, 0xf9];
    let each = |c1| [&sent(&[0x0a, c1])[..], &[read(7)]].concat();
    let calls = [&units.map(each).concat()[..], &sent(&READ_ID)].concat();
    list.add_fresh("id-not-ready-drive", &calls);
    let units = [0, 4, 1, 0xfc];
    let calls = [&units.map(each).concat()[..], &[A], &sent(&READ_ID)].concat();
    list.add_none("id-not-ready-without-disk", &calls);
    let unread = [
        send(&[0x08]),
        send(&[0x0a, 1]),
        Call::Boxes,
        read(1),
        send(&[0x0a, 5]),
        Call::Boxes,
        read(1),
        send(&[0x0a, 1]),
        Call::Boxes,
        NONE,
        send(&READ_ID),
        Call::Boxes,
        read(6),
        send(&READ_ID),
        Call::Boxes,
        read(1),
        send(&[0x4a, 4]),
        Call::Boxes,
        read(8),
    ];
    list.add_fresh("id-not-ready-keeps-an-unread-reply", &unread);
}
