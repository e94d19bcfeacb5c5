//! Which sector of its track was served: what a byte reports, and what a disk answers.

use kafondiye::{Controller, Disk, Match, Refusal, SectorId};

use crate::images::{self, Sector, Track};
use crate::{FIRST, format, fresh, read_data, refused, seek, send, with, write_data};

/// A sector in front of those that are looked for.
const OTHER: SectorId = SectorId { r: 9, ..FIRST };

/// An extended image's disk with these IDs on each track; every sector has the bytes that `make` gives.
fn disk_of(tracks: &[(u8, &[SectorId])], make: fn() -> Vec<u8>) -> Disk {
    let sector = |&id: &SectorId| -> Sector { (id, make()) };
    let track = |&(cylinder, ids): &(u8, &[SectorId])| Track {
        cylinder,
        sectors: ids.iter().map(sector).collect(),
    };
    let tracks: Vec<Track> = tracks.iter().map(track).collect();
    Disk::from_image(&images::extended(&tracks)).expect("a good image")
}

/// A disk with these IDs on cylinder 0.
fn disk(ids: &[SectorId]) -> Disk {
    disk_of(&[(0, ids)], || vec![7; 512])
}

/// The same with sectors that have no bytes, of which a track may have 255.
fn long_track(ids: &[SectorId]) -> Disk {
    disk_of(&[(0, ids)], Vec::new)
}

/// What is told of the sector at this place, one of so many with its ID.
fn at(place: u8, count: u8) -> Option<Match> {
    Some(Match { place, count })
}

/// Sends bytes that are all taken, of which only the last may tell of a sector: what it tells.
fn told(controller: &mut Controller, bytes: &[u8]) -> Option<Match> {
    let (last, before) = bytes.split_last().expect("there is a last byte");
    for &byte in before {
        let report = controller.write_cmd(byte).expect("the byte is taken");
        assert_eq!(report.sector, None, "told before the last byte");
    }
    controller.write_cmd(*last).expect("it is taken").sector
}

/// Read Deleted of drive 0, head 0.
fn read_deleted(id: SectorId) -> [u8; 9] {
    let mut command = read_data(id, id.r);
    command[0] = 0x4c;
    command
}

/// Every call that searches for the first sector of a fresh track tells this of it.
fn tells(disk: Disk, sector: Option<Match>) {
    assert_eq!(disk.has_sector(0, 0, FIRST), sector);
    let mut controller = with(disk);
    assert_eq!(told(&mut controller, &read_data(FIRST, 1)), sector);
    assert_eq!(told(&mut controller, &read_deleted(FIRST)), sector);
    assert_eq!(told(&mut controller, &write_data(FIRST)), sector);
    if sector.is_some() {
        assert_eq!(told(&mut controller, &[5; 512]), sector);
    }
}

#[test]
fn an_id_three_times_on_a_track_is_place_1_of_3() {
    tells(disk(&[FIRST, FIRST, FIRST]), at(1, 3));
}

#[test]
fn sectors_in_front_and_between_move_the_place_and_not_the_count() {
    tells(disk(&[OTHER, FIRST, FIRST, FIRST]), at(2, 3));
    tells(disk(&[OTHER, FIRST, OTHER, OTHER, FIRST]), at(2, 2));
    tells(disk(&[OTHER, OTHER, OTHER, FIRST]), at(4, 1));
}

#[test]
fn an_id_that_differs_in_one_byte_does_not_count() {
    let beside = [
        SectorId { c: 1, ..FIRST },
        SectorId { h: 1, ..FIRST },
        SectorId { r: 2, ..FIRST },
        SectorId { n: 6, ..FIRST },
    ];
    tells(disk(&[&beside[..], &[FIRST]].concat()), at(5, 1));
    tells(disk(&[&[FIRST], &beside[..]].concat()), at(1, 1));
    tells(disk(&beside), None);
}

#[test]
fn places_and_counts_reach_255() {
    let mut ids = [OTHER; 255];
    ids[254] = FIRST;
    tells(long_track(&ids), at(255, 1));
    ids[0] = FIRST;
    tells(long_track(&ids), at(1, 2));
    tells(long_track(&[FIRST; 255]), at(1, 255));
}

#[test]
fn of_equal_tracks_the_first_is_searched() {
    let make = || vec![7; 512];
    let tracks: [(u8, &[SectorId]); 2] = [(0, &[OTHER, FIRST]), (0, &[FIRST, FIRST])];
    tells(disk_of(&tracks, make), at(2, 1));
    let tracks: [(u8, &[SectorId]); 2] = [(0, &[OTHER]), (0, &[FIRST, FIRST])];
    tells(disk_of(&tracks, make), None);
}

#[test]
fn the_track_is_the_one_that_the_head_is_over() {
    let tracks: [(u8, &[SectorId]); 2] = [(0, &[FIRST]), (3, &[OTHER, FIRST, FIRST])];
    let mut controller = with(disk_of(&tracks, || vec![7; 512]));
    assert_eq!(told(&mut controller, &seek(3)), None);
    assert_eq!(told(&mut controller, &read_data(FIRST, 1)), at(2, 2));
    assert_eq!(told(&mut controller, &seek(0)), None);
    assert_eq!(told(&mut controller, &read_data(FIRST, 1)), at(1, 1));
}

#[test]
fn a_read_of_several_sectors_tells_of_its_first() {
    let [second, third] = [2, 3].map(|r| SectorId { r, ..FIRST });
    let ids = [third, third, second, FIRST, second, FIRST];
    let mut controller = with(disk(&ids));
    assert_eq!(told(&mut controller, &read_data(FIRST, 3)), at(4, 2));
    assert_eq!(told(&mut controller, &read_data(second, 3)), at(3, 2));
    assert_eq!(told(&mut controller, &read_data(third, 0)), at(1, 2));
}

#[test]
fn a_format_leaves_one_of_each_and_tells_of_none() {
    let mut controller = with(disk(&[OTHER, FIRST, FIRST]));
    assert_eq!(told(&mut controller, &format(2, 9, 0xe5)), None);
    assert_eq!(told(&mut controller, &read_data(FIRST, 1)), at(1, 1));
    assert_eq!(told(&mut controller, &read_data(OTHER, 9)), at(9, 1));
    assert_eq!(told(&mut controller, &format(0, 255, 0xe5)), None);
    let last = SectorId {
        r: 255,
        n: 0,
        ..FIRST
    };
    assert_eq!(told(&mut controller, &read_data(last, 255)), at(255, 1));
}

#[test]
fn a_write_tells_of_the_disk_that_is_in_at_its_end() {
    let ends = [
        (Some(disk(&[OTHER, FIRST, FIRST])), at(2, 2)),
        (Some(disk(&[OTHER])), None),
        (None, None),
    ];
    for (second, sector) in ends {
        let mut controller = with(disk(&[FIRST, FIRST, FIRST]));
        assert_eq!(told(&mut controller, &write_data(FIRST)), at(1, 3));
        send(&mut controller, &[5; 200]);
        controller.set_disk(second);
        assert_eq!(told(&mut controller, &[5; 312]), sector);
    }
}

#[test]
fn what_is_not_ready_tells_of_none() {
    let mut controller = fresh();
    for drive in 1..=3 {
        for mut command in [read_data(FIRST, 1), read_deleted(FIRST), write_data(FIRST)] {
            command[1] = drive;
            assert_eq!(told(&mut controller, &command), None);
        }
    }
    controller.set_disk(None);
    for command in [read_data(FIRST, 1), read_deleted(FIRST), write_data(FIRST)] {
        assert_eq!(told(&mut controller, &command), None);
    }
}

#[test]
fn other_commands_tell_of_none() {
    let mut controller = fresh();
    let others: [&[u8]; 9] = [
        &[0x03, 0x00, 0x00],
        &[0x04, 0x00],
        &[0x07, 0x00],
        &[0x08],
        &[0x10],
        &[0x4a, 0x00],
        &format(2, 9, 0xe5),
        &[0x49, 0x00, 0x00, 0x00, 0x01, 0x02, 0x01, 0x2a, 0xff],
        &[0x42, 0x00, 0x00, 0x00, 0x01, 0x02, 0x01, 0x2a, 0xff],
    ];
    for command in others {
        assert_eq!(told(&mut controller, command), None, "{command:02x?}");
    }
}

#[test]
fn a_refused_read_is_told_of_when_it_is_taken() {
    let mut controller = Controller::with_transfer_room(511);
    controller.set_disk(Some(disk(&[OTHER, FIRST, FIRST])));
    let refusal = refused(&mut controller, &read_data(FIRST, 1));
    assert_eq!(refusal, Refusal::NoTransferRoom);
    controller.set_transfer_room(512).expect("more room");
    assert_eq!(told(&mut controller, &[0xff]), at(2, 2));
}
