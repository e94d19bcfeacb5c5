//! Refusals: each number that a host can meet, and what can be done then; those of a sheet are in `sheets`. That a
//! refused byte changes nothing is seen in `refused`, with the controller's sheet and every byte of the disk.

use kafondiye::{Controller, Disk, Refusal, SectorId};

use crate::images::{self, Track};
use crate::{FIRST, format, fresh, pattern, read, read_data, refused, seek, send, status, with};
use crate::{everything, write_data};

/// An extended image with one track of these sectors.
fn image(sectors: Vec<images::Sector>) -> Vec<u8> {
    images::extended(&[Track {
        cylinder: 0,
        sectors,
    }])
}

/// Takes the disk out, gives it room and puts it in again.
fn give_room(controller: &mut Controller, room: usize) {
    let mut disk = controller.set_disk(None).expect("a disk");
    disk.set_room(room).expect("more room");
    controller.set_disk(Some(disk));
}

#[test]
fn numbers_are_1_to_9_and_11_to_13_and_each_has_its_text() {
    for number in (1..=9).chain(11..=13) {
        let refusal = Refusal::from_number(number).expect("a refusal");
        assert_eq!(refusal.number(), number);
        let text = refusal.to_string();
        assert!(text.starts_with(&format!("refusal {number}: ")), "{text}");
    }
    for number in [0, 10, 14, 255] {
        assert_eq!(Refusal::from_number(number), None);
    }
}

#[test]
fn a_transfer_room_below_the_data_is_1() {
    let mut controller = fresh();
    send(&mut controller, &read_data(FIRST, 1));
    let old = everything(&controller);
    let refusal = controller.set_transfer_room(511);
    assert_eq!(refusal, Err(Refusal::BadController));
    assert!(everything(&controller) == old);
    assert_eq!(controller.set_transfer_room(512), Ok(()));
    assert_eq!(read(&mut controller, 512), [0xe5; 512]);
}

#[test]
fn a_table_of_another_length_is_2() {
    let disk = Disk::new_formatted();
    let (table, data) = (disk.table(), disk.data());
    for table in [&table[1..], &[], &[table, &[0]].concat()] {
        let refusal = Disk::from_parts(table.to_vec(), data.to_vec()).err();
        assert_eq!(refusal, Some(Refusal::BadStore));
    }
}

#[test]
fn a_table_of_205_tracks_is_2() {
    let disk = Disk::new_formatted();
    let mut table = disk.table().to_vec();
    table[0] = 205;
    let refusal = Disk::from_parts(table, disk.data().to_vec()).err();
    assert_eq!(refusal, Some(Refusal::BadStore));
}

#[test]
fn a_data_room_below_the_stored_bytes_is_2() {
    let mut disk = Disk::new_formatted();
    let data = disk.data()[..184_319].to_vec();
    let refusal = Disk::from_parts(disk.table().to_vec(), data).err();
    assert_eq!(refusal, Some(Refusal::BadStore));
    assert_eq!(disk.set_room(184_319), Err(Refusal::BadStore));
    assert_eq!(disk.room(), Disk::LARGEST_ROOM);
    assert_eq!(disk.set_room(184_320), Ok(()));
    assert_eq!(disk.geometry(), (39, 0));
}

#[test]
fn an_image_without_its_last_byte_is_3() {
    let image = image(vec![(FIRST, pattern(0, 512))]);
    assert!(Disk::from_image(&image).is_ok());
    let refusal = Disk::from_image(&image[..image.len() - 1]).err();
    assert_eq!(refusal, Some(Refusal::ShortImage));
}

#[test]
fn another_signature_is_4() {
    let mut image = image(Vec::new());
    image[0] = b'e';
    assert_eq!(Disk::from_image(&image).err(), Some(Refusal::NotAnImage));
}

#[test]
fn a_track_without_its_signature_is_5() {
    let mut image = image(Vec::new());
    image[0x100] = b't';
    assert_eq!(Disk::from_image(&image).err(), Some(Refusal::NotATrack));
}

#[test]
fn an_image_of_205_tracks_is_6() {
    assert!(Disk::from_image(&images::normal(204)).is_ok());
    let refusal = Disk::from_image(&images::normal(205)).err();
    assert_eq!(refusal, Some(Refusal::TooManyTracks));
}

#[test]
fn a_format_of_a_track_205_is_6() {
    let mut controller = with(Disk::from_image(&images::normal(204)).expect("204 tracks"));
    send(&mut controller, &seek(204));
    let refusal = refused(&mut controller, &format(0, 0, 0xe5));
    assert_eq!(refusal, Refusal::TooManyTracks);
}

#[test]
fn an_image_of_2049_sectors_is_7() {
    let tracks = |last| -> Vec<Track> {
        let counts = [255, 255, 255, 255, 255, 255, 255, 255, last];
        let track = |(cylinder, count)| Track {
            cylinder,
            sectors: vec![(FIRST, Vec::new()); count],
        };
        (0..).zip(counts).map(track).collect()
    };
    assert!(Disk::from_image(&images::extended(&tracks(8))).is_ok());
    let refusal = Disk::from_image(&images::extended(&tracks(9))).err();
    assert_eq!(refusal, Some(Refusal::TooManySectors));
}

#[test]
fn a_format_to_2049_sectors_is_7() {
    let mut controller = with(Disk::from_image(&images::normal(0)).expect("no tracks"));
    for cylinder in 0..8 {
        send(&mut controller, &seek(cylinder));
        send(&mut controller, &format(0, 255, 0xe5));
    }
    send(&mut controller, &seek(8));
    let refusal = refused(&mut controller, &format(0, 9, 0xe5));
    assert_eq!(refusal, Refusal::TooManySectors);
    // The byte is still due. Without the disk it is taken, and the format with 8 sectors fits.
    let disk = controller.set_disk(None);
    send(&mut controller, &[0xe5]);
    controller.set_disk(disk);
    send(&mut controller, &format(0, 8, 0xe5));
}

#[test]
fn an_image_beyond_the_room_is_8() {
    let image = image(vec![(FIRST, pattern(0, 512))]);
    assert!(Disk::from_image_with_room(&image, 512).is_ok());
    let refusal = Disk::from_image_with_room(&image, 511).err();
    assert_eq!(refusal, Some(Refusal::NoRoom));
}

#[test]
fn a_fresh_disk_in_less_than_184320_bytes_is_8() {
    let room = |room| Disk::new_formatted_with_room(room).map(|disk| disk.room());
    assert_eq!(room(184_319), Err(Refusal::NoRoom));
    assert_eq!(room(184_320), Ok(184_320));
    assert_eq!(room(usize::MAX), Ok(Disk::LARGEST_ROOM));
}

#[test]
fn a_format_beyond_the_room_is_8_and_the_byte_is_taken_with_more() {
    let disk = Disk::new_formatted_with_room(184_320).expect("a fresh disk");
    let mut controller = with(disk);
    send(&mut controller, &seek(40));
    let refusal = refused(&mut controller, &format(0, 1, 0xaa));
    assert_eq!(refusal, Refusal::NoRoom);
    assert_eq!(status(&mut controller), 0x91);
    give_room(&mut controller, 184_447);
    assert_eq!(refused(&mut controller, &[0xaa]), Refusal::NoRoom);
    give_room(&mut controller, 184_448);
    send(&mut controller, &[0xaa]);
    assert_eq!(read(&mut controller, 7), [0; 7]);
    assert_eq!(controller.disk().map(Disk::geometry), Some((40, 0)));
}

#[test]
fn a_write_beyond_the_room_is_8_and_the_byte_is_taken_with_more() {
    let image = image(vec![(FIRST, vec![1; 10])]);
    let disk = Disk::from_image_with_room(&image, 10).expect("a good image");
    let mut controller = with(disk);
    let bytes = pattern(77, 512);
    send(&mut controller, &write_data(FIRST));
    assert_eq!(refused(&mut controller, &bytes), Refusal::NoRoom);
    assert_eq!(status(&mut controller), 0xb0);
    give_room(&mut controller, 512);
    send(&mut controller, &bytes[511..]);
    let disk = controller.disk().expect("a disk");
    assert_eq!(disk.sector(0, 0, FIRST), Some(&bytes[..]));
}

#[test]
fn a_read_beyond_the_transfer_room_is_9_and_the_byte_is_taken_with_more() {
    let mut controller = Controller::with_transfer_room(1023);
    controller.set_disk(Some(Disk::new_formatted()));
    let refusal = refused(&mut controller, &read_data(FIRST, 2));
    assert_eq!(refusal, Refusal::NoTransferRoom);
    assert_eq!(status(&mut controller), 0x90);
    controller.set_transfer_room(1024).expect("more room");
    send(&mut controller, &[0xff]);
    assert_eq!(read(&mut controller, 1024), [0xe5; 1024]);
    let answer = read(&mut controller, 7);
    assert_eq!(answer, [0x40, 0x80, 0x00, 0x00, 0x00, 0x02, 0x02]);
}

#[test]
fn a_read_of_over_65536_bytes_is_9_in_any_room() {
    let mut controller = fresh();
    controller.set_transfer_room(usize::MAX).expect("no less");
    assert_eq!(
        controller.transfer_room(),
        Controller::LARGEST_TRANSFER_ROOM
    );
    send(&mut controller, &format(3, 65, 0xe5));
    let id = SectorId { n: 3, ..FIRST };
    let refusal = refused(&mut controller, &read_data(id, 65));
    assert_eq!(refusal, Refusal::NoTransferRoom);
    // Without the disk the command ends as not ready.
    let disk = controller.set_disk(None);
    send(&mut controller, &[0xff]);
    assert_eq!(read(&mut controller, 1), [0xc8]);
    controller.set_disk(disk);
    send(&mut controller, &read_data(id, 64));
    assert_eq!(read(&mut controller, 65_536), vec![0xe5; 65_536]);
}
