//! Disks that are as full as the capacities allow. The refusals are document 01's;
//! the Rust has none.

use super::{AMPLE, List, format, id, no_tracks, read, save};
use crate::dsk::{FIRST, Plan, Track};
use crate::script::Operation;

/// Adds the scripts beside the largest numbers of tracks, sectors and bytes.
pub fn add(list: &mut List) {
    add_tracks(list);
    add_sectors(list);
    add_bytes_by_format(list);
    add_bytes_by_save(list);
    add_orders(list);
}

/// Tracks without sectors on cylinders 0 to `number` - 1.
fn tracks(number: u8) -> Vec<u8> {
    let tracks = (0..number).map(|cylinder| Track::new(cylinder, 0, Vec::new()));
    Plan::normal(number, 1, 0x18).row(0x18, tracks).image()
}

/// 204 tracks and one more.
fn add_tracks(list: &mut List) {
    let operations = [
        format([0, 203], 0, 1),
        format([0, 204], 0, 0),
        id([0, 204], 0),
        format([1, 0], 0, 1),
        format([0, 0], 0, 2),
        id([0, 0], 1),
    ];
    list.add("edge-204-tracks", tracks(203), &operations);
    let operations = [
        format([1, 0], 0, 0),
        format([1, 1], 0, 0),
        format([1, 0], 0, 1),
    ];
    list.add("edge-204-tracks-of-two-sides", tracks(203), &operations);
    let equal = Plan::normal(204, 1, 0).track(FIRST, Track::new(7, 0, Vec::new()));
    let operations = [
        format([0, 7], 0, 1),
        format([0, 8], 0, 1),
        format([0, 7], 0, 0),
    ];
    list.add("edge-204-equal-tracks", equal.image(), &operations);
}

/// Formats of 255 sectors on cylinders 0 to `number` - 1 of side 0.
fn full_tracks(number: u8, n: u8) -> Vec<Operation> {
    let full = |cylinder| format([0, cylinder], n, 255);
    (0..number).map(full).collect()
}

/// Reads of the first and the last 60 sectors of such tracks.
fn read_ends(number: u8, n: u8) -> Vec<Operation> {
    let ends = [(1, 60), (196, 255)];
    let of_track = |c| ends.map(|(r, eot)| read([0, c], [c, 0, r, n], eot, AMPLE));
    (0..number).flat_map(of_track).collect()
}

/// 2,048 sectors and one more.
fn add_sectors(list: &mut List) {
    let edge = [
        format([0, 8], 0, 9),
        format([0, 8], 0, 8),
        format([0, 8], 0, 9),
        format([0, 9], 0, 1),
        format([0, 9], 0, 0),
        format([0, 3], 0, 255),
        save([0, 8], [8, 0, 8, 0], 127),
        save([0, 0], [0, 0, 255, 0], 129),
        id([0, 7], 254),
        read([0, 7], [7, 0, 254, 0], 255, AMPLE),
        format([0, 3], 0, 254),
        format([0, 8], 0, 9),
        format([0, 8], 0, 10),
        format([0, 3], 0, 255),
        format([0, 9], 0, 1),
    ];
    let operations = [full_tracks(8, 0).as_slice(), &edge, &read_ends(8, 0)].concat();
    list.add("edge-2048-sectors", no_tracks(), &operations);
}

/// 1,048,576 bytes and more, reached by formats.
fn add_bytes_by_format(list: &mut List) {
    let edge = [
        format([0, 4], 3, 5),
        format([0, 4], 3, 4),
        format([0, 5], 0, 1),
        format([0, 5], 0, 0),
        format([0, 4], 3, 5),
        format([0, 2], 3, 255),
        save([0, 2], [2, 0, 128, 3], 1_025),
        save([0, 2], [2, 0, 128, 3], 1_024),
        read([0, 2], [2, 0, 127, 3], 129, AMPLE),
        save([0, 4], [4, 0, 4, 3], 1_023),
        format([0, 5], 0, 1),
        save([0, 0], [0, 0, 1, 3], 1_026),
        save([0, 0], [0, 0, 1, 3], 1_025),
        format([0, 0], 2, 255),
        format([1, 0], 2, 255),
        format([0, 5], 0, 1),
        format([1, 1], 0, 1),
    ];
    let operations = [full_tracks(4, 3).as_slice(), &edge, &read_ends(4, 3)].concat();
    list.add("edge-1048576-bytes-by-format", no_tracks(), &operations);
}

/// A save of sector `r` of cylinder 0, with its number as seed.
fn numbered(r: u8, length: u16) -> Operation {
    Operation::Save {
        place: [0, 0],
        id: [0, 0, r, 0],
        length,
        seed: r,
    }
}

/// Seventeen sectors on cylinder 0 with 1,048,576 bytes: 16 of the greatest
/// length, and the last of 16.
fn full_disk() -> Vec<Operation> {
    let saves = (1..=16).map(|r| numbered(r, 65_535));
    let first = [format([0, 0], 0, 17), numbered(17, 16)];
    first.into_iter().chain(saves).collect()
}

/// 1,048,576 bytes and one more, reached by saves; room freed in pieces is used
/// again.
fn add_bytes_by_save(list: &mut List) {
    let edge = [
        numbered(17, 17),
        numbered(17, 16),
        save([0, 0], [0, 0, 18, 0], 17),
        format([0, 1], 0, 1),
        format([0, 1], 0, 0),
        numbered(9, 65_534),
        numbered(17, 18),
        numbered(17, 17),
        numbered(9, 65_535),
        numbered(9, 65_407),
        format([0, 1], 0, 1),
        numbered(9, 65_406),
        format([0, 1], 0, 1),
        numbered(17, 18),
        read([0, 0], [0, 0, 16, 0], 16, AMPLE),
        read([0, 0], [0, 0, 16, 0], 17, AMPLE),
    ];
    let operations = [full_disk().as_slice(), &edge].concat();
    list.add("edge-1048576-bytes-by-save", no_tracks(), &operations);
    let shorter: Vec<Operation> = (1..=16).map(|r| numbered(r, 61_439)).collect();
    let used = [
        numbered(17, 65_535),
        numbered(1, 61_456),
        numbered(2, 61_440),
        format([0, 0], 0, 2),
    ];
    let operations = [full_disk().as_slice(), &shorter, &used].concat();
    list.add("edge-bytes-freed-in-pieces", no_tracks(), &operations);
    let emptied = [1, 3, 5, 7, 9, 11, 13, 15].map(|r| numbered(r, 0));
    let formats = [[0, 1], [1, 0], [1, 1]].map(|place| format(place, 3, 255));
    let last = [numbered(1, 2_041), numbered(1, 2_040)];
    let operations = [full_disk().as_slice(), &emptied, &formats, &last].concat();
    list.add("edge-bytes-freed-for-formats", no_tracks(), &operations);
}

/// Two capacities that would be passed at once: the first of 6, 7 and 8 counts.
fn add_orders(list: &mut List) {
    let edge = [
        format([0, 202], 2, 8),
        format([1, 0], 2, 1),
        format([0, 203], 0, 0),
        format([0, 204], 0, 0),
        format([0, 204], 0, 1),
        format([0, 202], 0, 9),
        format([0, 202], 2, 9),
        format([0, 202], 3, 5),
        format([0, 202], 3, 4),
    ];
    let operations = [full_tracks(8, 2).as_slice(), &edge, &read_ends(8, 2)].concat();
    list.add("edge-6-before-7-before-8", tracks(203), &operations);
}
