//! Disks on which it shows how a sector is looked for: equal tracks and IDs, of
//! which the first is found, and such as differ in one thing only.

use super::List;
use crate::dsk::{Plan, Sector, Track};

/// Adds the images that turn on which track and which sector are found.
pub fn add(list: &mut List) {
    add_equal_tracks(list);
    add_equal_ids(list);
    add_other_tracks(list);
    add_other_ids(list);
    add_fixed(list);
}

/// A track with these IDs, whose sectors store 16, 17, 18, .. bytes.
fn track(cylinder: u8, side: u8, ids: impl IntoIterator<Item = [u8; 4]>) -> Track {
    let sectors = ids.into_iter().zip(16..);
    let sectors = sectors.map(|(id, length)| Sector::stored(id, length));
    Track::new(cylinder, side, sectors.collect())
}

/// The byte, and the eight that differ from it in one bit.
fn neighbours(byte: u8) -> impl Iterator<Item = u8> {
    let others = (0..8).map(move |bit| byte ^ 1 << bit);
    [byte].into_iter().chain(others)
}

/// Of equal tracks the first is searched, and no other.
fn add_equal_tracks(list: &mut List) {
    let id = |r| [4, 0, r, 0];
    let twice = Plan::of([
        track(5, 0, [id(3)]),
        track(4, 0, [id(1), id(2)]),
        track(4, 1, [id(3)]),
        track(4, 0, [id(2), id(3)]),
    ]);
    list.add("lookup-one-cylinder-and-side-twice", twice.image());
    let empty = Plan::of([track(4, 0, []), track(4, 0, [id(1)])]);
    list.add("lookup-first-of-equal-tracks-is-empty", empty.image());
}

/// Of equal IDs the first is found, whatever it stores.
fn add_equal_ids(list: &mut List) {
    let id = |r| [4, 0, r, 0];
    let twice = Plan::of([track(4, 0, [id(1), id(2), id(1)])]);
    list.add("lookup-one-id-twice", twice.image());
    for (name, lengths) in [("first", [0, 20]), ("last", [20, 0])] {
        let sectors = lengths.map(|length| Sector::stored(id(1), length));
        let plan = Plan::of([Track::new(4, 0, sectors.to_vec())]);
        let name = format!("lookup-{name}-of-equal-ids-stores-no-bytes");
        list.add(name, plan.image());
    }
}

/// The same IDs on tracks whose cylinders and sides are nearly the same.
fn add_other_tracks(list: &mut List) {
    let track_at = |(cylinder, side)| track(cylinder, side, [[0, 0, 1, 0], [0, 0, 2, 0]]);
    let cylinders = neighbours(37).map(|byte| track_at((byte, 1)));
    let sides = neighbours(1).map(|byte| track_at((37, byte)));
    let exchanged = [(1, 0), (0, 1), (2, 1), (1, 2)].map(track_at);
    let crossed = [track(9, 1, [[6, 0, 1, 0]]), track(6, 0, [[9, 1, 1, 0]])];
    for (name, plan) in [
        ("tracks-that-differ-in-cylinder", Plan::of(cylinders)),
        ("tracks-that-differ-in-side", Plan::of(sides)),
        ("cylinder-and-side-exchanged", Plan::of(exchanged)),
        ("ids-that-name-another-track", Plan::of(crossed)),
    ] {
        list.add(format!("lookup-{name}"), plan.image());
    }
}

/// IDs that differ from the first in one bit of one field, and IDs that have the
/// same four bytes in every order.
fn add_other_ids(list: &mut List) {
    for (field, name) in ["c", "h", "r", "n"].into_iter().enumerate() {
        let mut id = [37, 1, 193, 2];
        let ids = neighbours(id[field]).map(|byte| {
            id[field] = byte;
            id
        });
        let plan = Plan::of([track(37, 1, ids)]);
        list.add(format!("lookup-ids-that-differ-in-{name}"), plan.image());
    }
    let ids = (0..=255).map(|bits: u8| [6, 4, 2, 0].map(|place| bits >> place & 3));
    let ids = ids.filter(|id| (0..4).all(|byte| id.contains(&byte)));
    let plan = Plan::of([track(0, 0, ids)]);
    list.add("lookup-ids-of-the-same-bytes-in-each-order", plan.image());
}

/// The addresses that every disk is asked for: they are there, or their IDs are
/// on other tracks.
fn add_fixed(list: &mut List) {
    let [low, usual, high] = [[0; 4], [0, 0, 1, 2], [255; 4]];
    let there = Plan::of([
        track(0, 0, [usual, low]),
        track(0, 1, [low, usual]),
        track(255, 255, [high]),
    ]);
    list.add("lookup-fixed-addresses-are-there", there.image());
    let elsewhere = Plan::of([
        track(0, 0, [usual, high]),
        track(0, 1, [low, high]),
        track(1, 1, [usual]),
        track(255, 254, [high]),
        track(254, 255, [high]),
    ]);
    list.add("lookup-fixed-addresses-elsewhere", elsewhere.image());
}
