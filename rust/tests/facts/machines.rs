//! The two machines: what they do alike, and where the data-sheet machine does what the data sheet says.

use kafondiye::{Controller, Disk, Machine, Match, Refusal, Report, SectorId};

use crate::{FIRST, everything, format, fresh, pattern, read, read_data, refused};
use crate::{seek, send, status, taken_up, write_data};

/// What a Format of sectors with n 2 replies.
const FORMATTED: [u8; 7] = [0, 0, 0, 0, 0, 0, 2];

/// A new controller of the data-sheet machine with this disk in its drive.
fn with_sheet(disk: Disk) -> Controller {
    let mut controller = Controller::new_with(Machine::DataSheet);
    controller.set_disk(Some(disk));
    controller
}

/// The same with a fresh disk.
fn data_sheet() -> Controller {
    with_sheet(Disk::new_formatted())
}

/// The disk in the drive.
fn disk(controller: &Controller) -> &Disk {
    controller.disk().expect("a disk")
}

/// Sector `r` of cylinder 0.
fn numbered(r: u8) -> SectorId {
    SectorId { r, ..FIRST }
}

/// The bytes of these IDs.
fn ids(ids: impl IntoIterator<Item = SectorId>) -> Vec<u8> {
    let ids = ids.into_iter();
    ids.flat_map(|SectorId { c, h, r, n }| [c, h, r, n])
        .collect()
}

/// The IDs of nine sectors, C1 to C9.
fn nine() -> Vec<u8> {
    ids((0xc1..=0xc9).map(numbered))
}

#[test]
fn a_controller_is_the_machine_that_it_was_made_with() {
    assert_eq!(Controller::new().machine(), Machine::default());
    for machine in [Machine::Rust, Machine::DataSheet] {
        let mut controller = Controller::new_with(machine);
        assert_eq!(controller.machine(), machine);
        controller.set_disk(Some(Disk::new_formatted()));
        send(&mut controller, &seek(3));
        assert_eq!(controller.machine(), machine);
        assert_eq!(taken_up(&controller).machine(), machine);
    }
}

#[test]
fn nine_sectors_are_formatted_by_their_ids_written_read_and_found() {
    let mut controller = data_sheet();
    send(&mut controller, &format(2, 9, 0xaa));
    for byte in nine() {
        assert_eq!(status(&mut controller), 0xb0);
        let report = controller.write_cmd(byte);
        assert_eq!(report, Ok(Report::default()));
    }
    assert_eq!(status(&mut controller), 0xd0);
    assert_eq!(read(&mut controller, 7), FORMATTED);
    let bytes = pattern(4, 512);
    send(&mut controller, &write_data(numbered(0xc5)));
    send(&mut controller, &bytes);
    assert_eq!(read(&mut controller, 7)[..2], [0x40, 0x80]);
    send(&mut controller, &read_data(numbered(0xc4), 0xc6));
    assert_eq!(read(&mut controller, 512), [0xaa; 512]);
    assert_eq!(read(&mut controller, 512), bytes);
    for (place, r) in (1..=9).zip(0xc1..=0xc9) {
        let found = disk(&controller).has_sector(0, 0, numbered(r));
        assert_eq!(found, Some(Match { place, count: 1 }));
    }
    for r in [1, 9, 0xc0, 0xca] {
        assert_eq!(disk(&controller).has_sector(0, 0, numbered(r)), None);
    }
}

#[test]
fn ids_stand_as_they_were_sent_and_lengths_go_by_the_command() {
    let mut controller = data_sheet();
    let other = SectorId {
        c: 7,
        h: 9,
        r: 1,
        n: 3,
    };
    send(&mut controller, &format(0, 3, 0x11));
    send(&mut controller, &ids([other, other, FIRST]));
    let disk = disk(&controller);
    let twice = Match { place: 1, count: 2 };
    assert_eq!(disk.has_sector(0, 0, other), Some(twice));
    for id in [other, FIRST] {
        assert_eq!(disk.sector(0, 0, id), Some(&[0x11; 128][..]));
    }
}

#[test]
fn a_disk_that_is_out_before_the_last_id_byte_stays_as_it_was() {
    let mut controller = data_sheet();
    let ids = nine();
    send(&mut controller, &format(2, 9, 0xaa));
    send(&mut controller, &ids[..35]);
    let out = controller.set_disk(None).expect("the disk");
    assert_eq!(status(&mut controller), 0xb0);
    send(&mut controller, &ids[35..]);
    assert_eq!(read(&mut controller, 8), [&FORMATTED[..], &[0]].concat());
    let old = Disk::new_formatted();
    assert!((out.table(), out.data()) == (old.table(), old.data()));
}

#[test]
fn the_track_is_laid_on_the_disk_that_is_in_at_the_last_id_byte() {
    let mut controller = data_sheet();
    send(&mut controller, &format(2, 9, 0xaa));
    send(&mut controller, &nine()[..20]);
    let first = controller.set_disk(Some(Disk::new_formatted()));
    send(&mut controller, &nine()[20..]);
    let first = first.expect("the first disk");
    assert_eq!(first.has_sector(0, 0, numbered(0xc1)), None);
    assert!(disk(&controller).has_sector(0, 0, numbered(0xc1)).is_some());
}

#[test]
fn no_sectors_another_drive_and_no_disk_have_no_ids() {
    let mut controller = data_sheet();
    send(&mut controller, &format(2, 0, 0xaa));
    assert_eq!(read(&mut controller, 8), [&FORMATTED[..], &[0]].concat());
    assert_eq!(disk(&controller).has_sector(0, 0, FIRST), None);
    send(&mut controller, &[0x4d, 0x01, 0x02, 0x09, 0x2a, 0xaa]);
    assert_eq!(read(&mut controller, 7), [0xc9, 0, 0, 0, 0, 0, 2]);
    controller.set_disk(None);
    send(&mut controller, &format(2, 9, 0xaa));
    assert_eq!(read(&mut controller, 7), [0xc8, 0, 0, 0, 0, 0, 2]);
}

#[test]
fn no_poll_loses_data_while_ids_are_taken_and_the_old_reply_stays() {
    let mut controller = data_sheet();
    send(&mut controller, &read_data(FIRST, 1));
    send(&mut controller, &format(2, 9, 0xaa));
    for _ in 0..10 {
        assert_eq!(status(&mut controller), 0xb0);
    }
    assert_eq!(read(&mut controller, 512), [0xe5; 512]);
    assert_eq!(read(&mut controller, 2), [0x40, 0x80]);
    send(&mut controller, &nine());
    assert_eq!(read(&mut controller, 7), FORMATTED);
}

#[test]
fn an_id_byte_that_is_refused_may_be_sent_again_with_more_room() {
    let small = Disk::new_formatted_with_room(184_320).expect("room enough");
    let mut controller = with_sheet(small);
    send(&mut controller, &format(3, 9, 0xaa));
    assert_eq!(refused(&mut controller, &nine()), Refusal::NoRoom);
    let mut disk = controller.set_disk(None).expect("the disk");
    disk.set_room(184_320 + 9 * 512).expect("more room");
    controller.set_disk(Some(disk));
    send(&mut controller, &[2]);
    assert_eq!(read(&mut controller, 7), [0, 0, 0, 0, 0, 0, 3]);
}

#[test]
fn an_invalid_command_replies_80_alone() {
    for first in [0x00, 0x01, 0x0b, 0x1f, 0x25, 0xff] {
        let mut controller = data_sheet();
        send(&mut controller, &[0x04, 0x00, first]);
        assert_eq!(read(&mut controller, 2), [0x80, 0x00]);
        let mut rust = fresh();
        send(&mut rust, &[0x04, 0x00, first]);
        assert_eq!(read(&mut rust, 2), [0x38, 0x00]);
    }
}

#[test]
fn a_second_sense_interrupt_replies_80_alone() {
    let mut controller = data_sheet();
    send(&mut controller, &seek(5));
    send(&mut controller, &[0x08]);
    assert_eq!(read(&mut controller, 3), [0x20, 0x05, 0x00]);
    send(&mut controller, &[0x08]);
    assert_eq!(status(&mut controller), 0xd1);
    assert_eq!(read(&mut controller, 1), [0x80]);
    assert_eq!(status(&mut controller), 0x80);
}

#[test]
fn the_rust_machine_takes_no_ids() {
    let mut controller = fresh();
    send(&mut controller, &format(2, 9, 0xaa));
    assert_eq!(read(&mut controller, 7), FORMATTED);
    assert!(disk(&controller).has_sector(0, 0, numbered(9)).is_some());
}

#[test]
fn wherever_it_is_paused_a_format_goes_on_alike() {
    let mut controller = data_sheet();
    send(&mut controller, &format(2, 9, 0xaa));
    let ids = nine();
    for place in 0..ids.len() {
        let [mut on, mut taken] = [controller.clone(), taken_up(&controller)];
        for controller in [&mut on, &mut taken] {
            assert_eq!(status(controller), 0xb0);
            send(controller, &ids[place..]);
        }
        assert!(everything(&on) == everything(&taken), "paused at {place}");
        send(&mut controller, &ids[place..=place]);
    }
}
