//! Saves: which sector takes the new bytes, and that nothing else changes.

use super::{List, format, image, no_tracks, save, track, track_of};
use crate::dsk::{Plan, Sector, Track};
use crate::script::Operation;

/// Adds the scripts that save sectors.
pub fn add(list: &mut List) {
    add_lengths(list);
    add_first_matches(list);
    add_missing(list);
    add_beside(list);
    add_rows(list);
}

/// Three tracks; the middle one, cylinder 2, has sectors 1 to 4 of 17 to 20 bytes.
fn disk() -> Vec<u8> {
    image([track([0, 1], 1), track([0, 2], 4), track([0, 3], 1)])
}

/// Every length at the front, in the middle and at the end of a track.
fn add_lengths(list: &mut List) {
    for (name, [first, middle, last]) in [
        ("as-long", [17, 19, 20]),
        ("one-shorter", [16, 18, 19]),
        ("one-longer", [18, 20, 21]),
        ("empty", [0; 3]),
        ("far-longer", [1_000; 3]),
    ] {
        let lengths = [(1, first), (3, middle), (4, last)];
        let saves = lengths.map(|(r, length)| save([0, 2], [2, 0, r, 0], length));
        list.add(format!("save-{name}"), disk(), &saves);
    }
    let first_and_last = [
        save([0, 1], [1, 0, 1, 0], 100),
        save([0, 3], [3, 0, 1, 0], 100),
    ];
    list.add("save-first-and-last-track", disk(), &first_and_last);
    let saves = [(0, 1), (255, 256), (128, 257), (1, 513), (9, 65_535)];
    let saves = saves.map(|(seed, length)| Operation::Save {
        place: [0, 2],
        id: [2, 0, 2, 0],
        length,
        seed,
    });
    list.add("save-lengths-and-seeds", disk(), &saves);
}

/// Of equal IDs and equal tracks the first is taken.
fn add_first_matches(list: &mut List) {
    let id = [2, 0, 1, 0];
    let ids = image([track_of([([2, 0, 9, 0], 8), (id, 9), (id, 10), (id, 11)])]);
    let saves = [
        save([0, 2], id, 30),
        save([0, 2], id, 0),
        save([0, 2], id, 5),
    ];
    list.add("save-first-of-equal-ids", ids, &saves);
    let tracks = image([track([0, 3], 1), track([0, 2], 2), track([0, 2], 3)]);
    let saves = [save([0, 2], id, 30), save([0, 2], [2, 0, 3, 0], 30)];
    list.add("save-first-of-equal-tracks", tracks, &saves);
    let tracks = image([track([0, 2], 0), track([0, 2], 1)]);
    list.add(
        "save-first-of-equal-tracks-is-empty",
        tracks,
        &[save([0, 2], id, 9)],
    );
}

/// What is not there is not saved.
fn add_missing(list: &mut List) {
    let id = [2, 0, 1, 0];
    let others = [[0, 4], [1, 2], [2, 2], [0, 0]].map(|place| save(place, id, 9));
    list.add("save-missing-track", disk(), &others);
    let others = [
        [2, 0, 0, 0],
        [2, 0, 5, 0],
        [1, 0, 1, 0],
        [2, 1, 1, 0],
        [2, 0, 1, 4],
    ];
    let others = others.map(|id| save([0, 2], id, 9));
    list.add("save-missing-sector", disk(), &others);
    list.add("save-without-tracks", no_tracks(), &[save([0, 2], id, 0)]);
}

/// Nothing but the bytes and their number changes.
fn add_beside(list: &mut List) {
    let ids = [
        [2, 0, 1, 0],
        [3, 0, 1, 0],
        [2, 1, 1, 0],
        [2, 0, 2, 0],
        [2, 0, 1, 4],
    ];
    let differing = image([track_of(ids.map(|id| (id, 16)))]);
    let saves = ids.map(|id| save([0, 2], id, 24));
    list.add("save-ids-that-differ-in-one-byte", differing, &saves);
    let sectors = [(1, 255, 255), (2, 0, 64), (3, 32, 0)];
    let sectors = sectors.map(|(r, st1, st2)| Sector::stored([2, 0, r, 0], 16).status(st1, st2));
    let status = image([Track::new(2, 0, sectors.to_vec())]);
    let saves = [1, 2, 3].map(|r| save([0, 2], [2, 0, r, 0], 128));
    list.add("save-keeps-status", status, &saves);
    let places = [[0, 2], [1, 2], [2, 2], [255, 2]];
    let sides = image(places.map(|place| track(place, 1)));
    let saves = places.map(|place| save(place, [2, place[0], 1, 0], 24));
    list.add("save-on-each-side", sides, &saves);
    let sectors = [1, 2].map(|r| Sector::sized([2, 0, r, 0]));
    let track = Track::new(2, 0, sectors.to_vec());
    let normal = Plan::normal(1, 1, 0x200).row(0x200, [track]);
    list.add(
        "save-on-a-normal-image",
        normal.image(),
        &[save([0, 2], [2, 0, 1, 0], 129)],
    );
}

/// Saves one after another, and saves behind formats.
fn add_rows(list: &mut List) {
    let sectors = [
        (1, 40),
        (2, 30),
        (3, 0),
        (4, 50),
        (3, 70),
        (1, 0),
        (2, 31),
        (1, 90),
    ];
    let saves = sectors.map(|(r, length)| save([0, 2], [2, 0, r, 0], length));
    list.add("save-row", disk(), &saves);
    let operations = [
        format([0, 2], 0, 2),
        save([0, 2], [2, 0, 2, 0], 300),
        save([0, 2], [2, 0, 3, 0], 9),
        format([0, 0], 0, 1),
        save([0, 0], [0, 0, 1, 0], 3),
        save([0, 2], [2, 0, 1, 0], 0),
        format([0, 2], 0, 1),
    ];
    list.add("save-between-formats", disk(), &operations);
    let saves = [
        save([0, 39], [39, 0, 9, 2], 511),
        save([0, 0], [0, 0, 1, 2], 513),
    ];
    list.add_fresh("save-on-a-fresh-disk", &saves);
}
