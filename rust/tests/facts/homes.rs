//! Disks that go home as extended images, and those that cannot.

use kafondiye::{Controller, Disk, Refusal, SectorId};

use crate::images::{self, Track};
use crate::{FIRST, format, fresh, pattern, seek, send, with, write_data};

/// The disk in the drive.
fn disk(controller: &Controller) -> &Disk {
    controller.disk().expect("a disk")
}

/// A disk whose image loads as an equal disk: the same table, and the same data as far as they count.
fn comes_back(disk: &Disk) -> Vec<u8> {
    let image = disk.to_image().expect("an image");
    let back = Disk::from_image_with_room(&image, disk.room()).expect("it loads");
    assert!(back.to_image().as_ref() == Ok(&image));
    assert_eq!(back.table()[..used(&back)], disk.table()[..used(disk)]);
    image
}

/// How many bytes of a table count.
fn used(disk: &Disk) -> usize {
    let table = disk.table();
    (0..table[0]).fold(1, |place, _| place + 6 + 8 * usize::from(table[place + 5]))
}

/// A disk of tracks without sectors, whose blocks stand in this order.
fn tracks(cylinders: &[u8]) -> Disk {
    let tracks: Vec<Track> = cylinders
        .iter()
        .map(|&cylinder| Track {
            cylinder,
            sectors: Vec::new(),
        })
        .collect();
    Disk::from_image(&images::extended(&tracks)).expect("a good image")
}

#[test]
fn a_fresh_disk_comes_home_whole() {
    let image = comes_back(&Disk::new_formatted());
    assert_eq!(image.len(), 256 + 40 * (256 + 9 * 512));
    assert_eq!(image[0x30..0x34], [40, 1, 0, 0]);
    assert_eq!(image[0x34..0x34 + 40], [19; 40]);
}

#[test]
fn what_was_saved_comes_home() {
    let mut controller = fresh();
    let bytes = pattern(9, 512);
    let id = SectorId { c: 3, ..FIRST };
    send(&mut controller, &seek(3));
    send(&mut controller, &write_data(id));
    send(&mut controller, &bytes);
    let image = comes_back(disk(&controller));
    let back = Disk::from_image(&image).expect("it loads");
    assert_eq!(back.sector(0, 3, id), Some(&bytes[..]));
    assert_eq!(
        back.data()[..40 * 4608],
        disk(&controller).data()[..40 * 4608]
    );
}

#[test]
fn a_disk_without_tracks_is_256_bytes_with_no_cylinder_and_one_side() {
    let image = comes_back(&tracks(&[]));
    assert_eq!(image.len(), 256);
    assert_eq!(image[0x30..0x34], [0, 1, 0, 0]);
}

#[test]
fn a_cylinder_that_is_not_there_is_0_in_the_table() {
    let image = comes_back(&tracks(&[1, 3]));
    assert_eq!(image[0x30..0x39], [4, 1, 0, 0, 0, 1, 0, 1, 0]);
    assert_eq!(image.len(), 3 * 256);
}

#[test]
fn tracks_that_do_not_rise_are_12() {
    for cylinders in [[1, 1], [1, 0]] {
        assert_eq!(tracks(&cylinders).to_image(), Err(Refusal::NoImage));
    }
}

#[test]
fn more_than_204_entries_are_12() {
    comes_back(&tracks(&[203]));
    assert_eq!(tracks(&[204]).to_image(), Err(Refusal::NoImage));
}

#[test]
fn a_track_of_29_sectors_comes_home_and_one_of_30_is_12() {
    let mut controller = with(tracks(&[0]));
    send(&mut controller, &format(0, 29, 0xe5));
    comes_back(disk(&controller));
    let mut controller = with(tracks(&[0]));
    send(&mut controller, &format(0, 30, 0xe5));
    let refusal = disk(&controller).to_image();
    assert_eq!(refusal, Err(Refusal::NoImage));
}
