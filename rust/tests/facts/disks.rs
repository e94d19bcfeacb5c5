//! Disks that are loaded, and what is found on them.

use std::fs;
use std::path::Path;

use kafondiye::{Disk, Match, SectorId};

use crate::images::{self, Track};
use crate::{FIRST, read, seek, send, with};

/// An image that the tools of libdsk wrote.
fn libdsk(name: &str) -> Vec<u8> {
    let folder = concat!(env!("CARGO_MANIFEST_DIR"), "/../oracle/libdsk");
    fs::read(Path::new(folder).join(name)).expect("an image of libdsk")
}

/// Side, cylinder, ID and bytes of each sector of an image whose tracks have one size.
fn sectors(image: &[u8], track_size: usize) -> Vec<(u8, u8, SectorId, &[u8])> {
    let mut all = Vec::new();
    for track in image[0x100..].chunks(track_size) {
        let mut place = 0x100;
        for entry in track[0x18..].chunks(8).take(track[0x15].into()) {
            let &[c, h, r, n, ..] = entry else {
                panic!("the list of sectors is cut short");
            };
            let size = 128 << n;
            let bytes = &track[place..place + size];
            all.push((track[0x11], track[0x10], SectorId { c, h, r, n }, bytes));
            place += size;
        }
    }
    all
}

/// An image loads as a disk with this geometry, on which each of so many sectors is found with its bytes.
fn loads(name: &str, track_size: usize, count: usize, geometry: (u8, u8)) {
    let image = libdsk(name);
    let disk = Disk::from_image(&image).expect("a good image");
    assert_eq!(disk.geometry(), geometry);
    let sectors = sectors(&image, track_size);
    assert_eq!(sectors.len(), count);
    for (side, cylinder, id, bytes) in sectors {
        assert!(disk.has_sector(side, cylinder, id).is_some());
        assert_eq!(disk.sector(side, cylinder, id), Some(bytes));
    }
}

#[test]
fn a_normal_image_of_libdsk_loads_with_every_sector() {
    loads("normal-cpcsys.dsk", 0x1300, 360, (39, 0));
}

#[test]
fn an_extended_image_of_libdsk_loads_with_every_sector() {
    loads("extended-cpcdata.dsk", 0x1300, 360, (39, 0));
}

#[test]
fn an_extended_image_of_two_sides_loads_with_every_sector() {
    loads("extended-acorn800.dsk", 0x1500, 80, (7, 7));
}

#[test]
fn shorter_images_of_libdsk_load_with_every_sector() {
    loads("normal-cpcsys-12.dsk", 0x1300, 108, (11, 0));
    loads("extended-acorn800-5.dsk", 0x1500, 50, (4, 4));
}

#[test]
fn every_image_in_the_folder_of_libdsk_is_tried_above() {
    let folder = concat!(env!("CARGO_MANIFEST_DIR"), "/../oracle/libdsk");
    let names = fs::read_dir(folder).expect("the folder").map(|entry| {
        let path = entry.expect("an entry").path();
        path.extension().is_some_and(|kind| kind == "dsk")
    });
    assert_eq!(names.filter(|is_image| *is_image).count(), 5);
}

#[test]
fn read_id_tells_the_sectors_of_an_image_in_turn() {
    let image = libdsk("normal-cpcsys.dsk");
    let mut controller = with(Disk::from_image(&image).expect("a good image"));
    send(&mut controller, &seek(20));
    for (_, _, id, _) in &sectors(&image, 0x1300)[20 * 9..21 * 9] {
        send(&mut controller, &[0x4a, 0x00]);
        let answer = read(&mut controller, 7);
        assert_eq!(answer, [0x00, 0x00, 0x00, id.c, id.h, id.r, id.n]);
    }
}

#[test]
fn a_sector_without_bytes_is_there_and_empty() {
    let sectors = vec![(FIRST, Vec::new())];
    let image = images::extended(&[Track {
        cylinder: 0,
        sectors,
    }]);
    let disk = Disk::from_image(&image).expect("a good image");
    let only = Match { place: 1, count: 1 };
    assert_eq!(disk.has_sector(0, 0, FIRST), Some(only));
    assert_eq!(disk.sector(0, 0, FIRST), Some(&[][..]));
    assert_eq!(disk.sector(0, 1, FIRST), None);
    assert_eq!(disk.sector(1, 0, FIRST), None);
}

#[test]
fn of_equal_ids_the_first_is_found() {
    let sectors = vec![(FIRST, vec![1; 512]), (FIRST, vec![2; 512])];
    let image = images::extended(&[Track {
        cylinder: 0,
        sectors,
    }]);
    let disk = Disk::from_image(&image).expect("a good image");
    assert_eq!(disk.sector(0, 0, FIRST), Some(&[1; 512][..]));
}

#[test]
fn a_fresh_disk_has_40_tracks_of_nine_sectors() {
    let disk = Disk::new_formatted();
    assert_eq!(disk.geometry(), (39, 0));
    for cylinder in 0..40 {
        for r in 1..=9 {
            let id = SectorId {
                c: cylinder,
                r,
                ..FIRST
            };
            assert_eq!(disk.sector(0, cylinder, id), Some(&[0xe5; 512][..]));
        }
    }
    assert_eq!(disk.table()[0], 40);
}
