//! Normal images: one track size for all, sector lengths by `n`.

use super::List;
use crate::dsk::{FIRST, Plan, Sector, Track};

/// Adds the images that turn on what a normal image has of its own.
pub fn add(list: &mut List) {
    add_good(list);
    add_sizes_by_n(list);
    add_track_sizes(list);
}

/// A track with one sector of 128 bytes.
fn track(cylinder: u8, side: u8) -> Track {
    Track::new(cylinder, side, vec![Sector::sized([cylinder, side, 1, 0])])
}

fn add_good(list: &mut List) {
    let one = Plan::normal(1, 1, 0x180).track(FIRST, track(0, 0));
    list.add("normal-one-track", one.image());
    for (name, tracks, sides) in [
        ("normal-two-tracks-two-sides", 2, 2),
        ("normal-four-tracks-one-side", 4, 1),
        ("normal-one-track-four-sides", 1, 4),
    ] {
        let plan = Plan::normal(tracks, sides, 0x180)
            .track(0x100, track(0, 0))
            .track(0x280, track(0, 1))
            .track(0x400, track(1, 0))
            .track(0x580, track(1, 1));
        list.add(name, plan.image());
    }
}

fn add_sizes_by_n(list: &mut List) {
    for n in [0, 1, 2, 3, 4, 5, 6, 7, 128, 255] {
        let sectors = vec![Sector::sized([0, 0, 1, n]).status(n, !n)];
        let plan = Plan::normal(1, 1, 0x200).track(FIRST, Track::new(0, 0, sectors));
        list.add(format!("normal-length-by-n-{n:03}"), plan.image());
    }
    let ids = [[0, 0, 1, 1], [0, 0, 2, 0], [0, 0, 3, 2]];
    let track = Track {
        size: 3,
        ..Track::new(0, 0, ids.map(Sector::sized).to_vec())
    };
    let mixed = Plan::normal(1, 1, 0x480).track(FIRST, track);
    list.add("normal-length-by-n-of-each-sector", mixed.image());
}

/// The next track is a track size further, whatever the data took.
fn add_track_sizes(list: &mut List) {
    let three = |size: u16| {
        let place = |number: u16| FIRST + usize::from(size * number);
        Plan::normal(3, 1, size)
            .track(place(0), track(0, 0))
            .track(place(1), track(1, 0))
            .track(place(2), track(2, 0))
            .image()
    };
    for size in [32, 33, 255, 256, 257, 0x181, 0x2ff, 0x400] {
        list.add(format!("normal-track-size-{size:04}"), three(size));
    }
    for (name, size) in [
        ("normal-track-size-0-reads-one-place-again", 0),
        ("normal-track-size-1-leads-into-the-track", 1),
    ] {
        let plan = Plan::normal(3, 2, size).track(FIRST, track(7, 1));
        list.add(name, plan.image());
    }
    let last = Plan::normal(1, 1, 65_535).track(FIRST, track(0, 0));
    list.add("normal-last-track-needs-no-more-bytes", last.image());
    let missing = Plan::normal(2, 1, 65_535).track(FIRST, track(0, 0));
    list.add(
        "normal-track-size-65535-leads-past-the-end",
        missing.image(),
    );
    let mut after = three(0x180);
    after.extend(b"Track-Info\r\n behind the last track");
    list.add("normal-bytes-after-the-last-track", after);
}
