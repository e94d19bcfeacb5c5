//! The sessions that the definition of the controller sets out, byte for byte.

use kafondiye::{Controller, Disk, Refusal, SectorId};

use crate::{FIRST, format, fresh, images, read, read_data, refused, seek, send, status};

/// Sends a command and reads what it replies.
fn reply(controller: &mut Controller, command: &[u8], count: usize) -> Vec<u8> {
    send(controller, command);
    read(controller, count)
}

#[test]
fn a_new_controller_has_status_80_and_data_00() {
    let mut controller = Controller::new();
    assert_eq!(status(&mut controller), 0x80);
    assert_eq!(read(&mut controller, 1), [0x00]);
    assert!(!controller.motor());
    assert_eq!(controller.current_track(), 0);
    assert!(controller.disk().is_none());
}

#[test]
fn sense_drive_is_half_sent_and_then_ready_at_cylinder_0() {
    let mut controller = fresh();
    send(&mut controller, &[0x04]);
    assert_eq!(status(&mut controller), 0x90);
    assert_eq!(reply(&mut controller, &[0x00], 1), [0x38]);
}

#[test]
fn sense_drive_of_drive_1_is_81() {
    assert_eq!(reply(&mut fresh(), &[0x04, 0x05], 1), [0x81]);
}

#[test]
fn a_seek_runs_until_one_sense_interrupt() {
    let mut controller = fresh();
    send(&mut controller, &seek(5));
    assert_eq!(status(&mut controller), 0x81);
    assert_eq!(controller.current_track(), 5);
    send(&mut controller, &[0x08]);
    assert_eq!(status(&mut controller), 0xd1);
    assert_eq!(read(&mut controller, 2), [0x20, 0x05]);
    assert_eq!(status(&mut controller), 0x80);
    assert_eq!(reply(&mut controller, &[0x08], 2), [0x80, 0x05]);
}

#[test]
fn sizes_for_n_0_3_4_255_are_128_1024_128_1024() {
    for (n, size) in [(0, 128), (3, 1024), (4, 128), (255, 1024)] {
        let mut controller = fresh();
        send(&mut controller, &format(n, 1, 0xaa));
        let id = SectorId { n, ..FIRST };
        let disk = controller.disk().expect("a disk");
        assert_eq!(disk.sector(0, 0, id), Some(&vec![0xaa; size][..]));
    }
}

#[test]
fn a_missing_sector_replies_missing() {
    let missing = SectorId { r: 0x41, ..FIRST };
    let answer = reply(&mut fresh(), &read_data(missing, 0x41), 7);
    assert_eq!(answer, [0x40, 0x01, 0x00, 0xff, 0xff, 0xff, 0xff]);
}

#[test]
fn a_read_without_a_disk_is_not_ready() {
    let answer = reply(&mut Controller::new(), &read_data(FIRST, 1), 7);
    assert_eq!(answer, [0xc8, 0x00, 0x00, 0x00, 0x00, 0x01, 0x02]);
}

#[test]
fn a_format_replies_its_n_and_lays_its_sectors() {
    let mut controller = fresh();
    let answer = reply(&mut controller, &format(1, 3, 0xaa), 7);
    assert_eq!(answer, [0x00, 0x00, 0x00, 0x00, 0x00, 0x00, 0x01]);
    let disk = controller.disk().expect("a disk");
    let sector = |r| disk.sector(0, 0, SectorId { r, n: 1, ..FIRST });
    assert_eq!(sector(3), Some(&[0xaa; 256][..]));
    assert_eq!(sector(4), None);
    assert_eq!(disk.has_sector(0, 0, FIRST), None);
}

#[test]
fn a_short_file_is_3_and_another_file_is_4() {
    assert_eq!(Disk::from_image(&[0; 11]).err(), Some(Refusal::ShortImage));
    assert_eq!(Disk::from_image(&[0; 12]).err(), Some(Refusal::NotAnImage));
}

#[test]
fn a_normal_image_without_tracks_needs_52_bytes() {
    let image = images::normal(0);
    let short = Disk::from_image(&image[..51]).err();
    assert_eq!(short, Some(Refusal::ShortImage));
    let disk = Disk::from_image(&image[..52]).expect("an image without tracks");
    assert_eq!(disk.geometry(), (0, 0));
    assert_eq!(disk.table()[0], 0);
}

#[test]
fn a_read_gives_the_sectors_up_to_eot_and_replies_eot_as_r() {
    for (eot, count) in [(1, 512), (0, 512), (0x0c, 4608)] {
        let mut controller = fresh();
        send(&mut controller, &read_data(FIRST, eot));
        assert_eq!(status(&mut controller), 0xf0);
        assert!(
            read(&mut controller, count)
                .iter()
                .all(|&byte| byte == 0xe5)
        );
        assert_eq!(status(&mut controller), 0xd0);
        let answer = read(&mut controller, 7);
        assert_eq!(answer, [0x40, 0x80, 0x00, 0x00, 0x00, eot, 0x02]);
        assert_eq!(status(&mut controller), 0x80);
    }
}

#[test]
fn a_transfer_room_of_512_serves_one_sector_and_not_two() {
    let mut controller = Controller::with_transfer_room(512);
    controller.set_disk(Some(Disk::new_formatted()));
    send(&mut controller, &read_data(FIRST, 1));
    assert_eq!(read(&mut controller, 512), [0xe5; 512]);
    let answer = read(&mut controller, 7);
    assert_eq!(answer, [0x40, 0x80, 0x00, 0x00, 0x00, 0x01, 0x02]);
    let refusal = refused(&mut controller, &read_data(FIRST, 2));
    assert_eq!(refusal, Refusal::NoTransferRoom);
}

#[test]
fn three_polls_lose_a_byte_and_a_read_starts_the_count_again() {
    let mut controller = fresh();
    send(&mut controller, &read_data(FIRST, 1));
    for _ in 0..2 {
        assert_eq!(status(&mut controller), 0xf0);
    }
    assert_eq!(read(&mut controller, 1), [0xe5]);
    for _ in 0..3 * 511 {
        assert_eq!(status(&mut controller), 0xf0);
    }
    assert_eq!(status(&mut controller), 0xd0);
    assert_eq!(read(&mut controller, 1), [0x40]);
}
