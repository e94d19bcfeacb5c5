//! Disks as large as the capacities allow, and the first that are larger. The
//! Rust has no capacities and loads them all.

use super::List;
use crate::dsk::{FIRST, Plan, Sector, Track};

/// Adds the images beside the largest numbers of tracks, sectors and bytes.
pub fn add(list: &mut List) {
    list.add("edge-204-tracks", tracks(204));
    list.add("edge-205-tracks", tracks(205));
    list.add("edge-2048-sectors", sectors(8));
    list.add("edge-2049-sectors", sectors(9));
    list.add("edge-1048576-bytes", one_place(128, 8, 3));
    list.add("edge-1048576-bytes-extended", bytes(16_384));
    list.add("edge-1048577-bytes-extended", bytes(16_385));
    list.add("edge-204-tracks-2048-sectors-1048576-bytes", full());
    list.add("edge-too-many-bytes", one_place(129, 8, 3));
    list.add("edge-too-many-sectors-and-bytes", one_place(204, 11, 3));
    list.add("edge-too-many-tracks-and-bytes", one_place(205, 9, 3));
    list.add("edge-too-many-tracks-and-sectors", one_place(205, 10, 0));
}

/// Tracks without sectors, their headers one behind another.
fn tracks(number: u8) -> Vec<u8> {
    let tracks = (0..number).map(|cylinder| Track::new(cylinder, 0, Vec::new()));
    Plan::normal(number, 1, 0x18).row(0x18, tracks).image()
}

/// Eight tracks of 255 sectors and one of `last`, none of which stores a byte.
fn sectors(last: u8) -> Vec<u8> {
    let track = |(cylinder, number): (u8, u8)| {
        let ids = (1..=number).map(|r| Sector::stored([cylinder, 0, r, 0], 0));
        Track::new(cylinder, 0, ids.collect())
    };
    let tracks = (0..).zip([255; 8].into_iter().chain([last])).map(track);
    Plan::extended(9, 1, &[9; 9]).row(0x900, tracks).image()
}

/// 63 tracks that store 16,384 bytes and one that stores `last`, each 256 bytes
/// behind the one before.
fn bytes(last: u16) -> Vec<u8> {
    let track = |(cylinder, length): (u8, u16)| {
        let sector = Sector::stored([cylinder, 0, 1, 6], length);
        Track::new(cylinder, 0, vec![sector])
    };
    let lengths = [16_384; 63].into_iter().chain([last]);
    let tracks = (0..).zip(lengths).map(track);
    Plan::extended(64, 1, &[1; 64]).row(0x100, tracks).image()
}

/// The fullest disk: eight tracks of eleven sectors and 196 of ten, of 512 bytes
/// each, each track 256 bytes behind the one before.
fn full() -> Vec<u8> {
    let track = |cylinder: u8| {
        let number = if cylinder < 8 { 11 } else { 10 };
        let ids = (1..=number).map(|r| Sector::stored([cylinder, 0, r, 2], 512));
        Track::new(cylinder, 0, ids.collect())
    };
    let tracks = (0..204).map(track);
    Plan::extended(204, 1, &[1; 204]).row(0x100, tracks).image()
}

/// Tracks with this number of sectors of size `n`, all read at one place.
fn one_place(tracks: u8, sectors: u8, n: u8) -> Vec<u8> {
    let ids = (1..=sectors).map(|r| Sector::sized([0, 0, r, n]));
    Plan::normal(tracks, 1, 0)
        .track(FIRST, Track::new(0, 0, ids.collect()))
        .image()
}
