//! Saves through the ports: what they change, and what they leave.

use kafondiye::{Controller, Disk, SectorId};

use crate::{FIRST, fresh, pattern, read, read_data, seek, send, status, write_data};

/// Seek, Write Data of sector `r` of a fresh disk's track, and its bytes.
fn save(controller: &mut Controller, cylinder: u8, r: u8, bytes: &[u8]) {
    let id = SectorId {
        c: cylinder,
        r,
        ..FIRST
    };
    send(controller, &seek(cylinder));
    send(controller, &write_data(id));
    send(controller, bytes);
}

/// The disk in the drive.
fn disk(controller: &Controller) -> &Disk {
    controller.disk().expect("a disk")
}

#[test]
fn a_save_changes_its_sector_and_nothing_else() {
    let mut controller = fresh();
    let old = disk(&controller).clone();
    let bytes = pattern(7, 512);
    save(&mut controller, 17, 5, &bytes);
    assert_eq!(disk(&controller).table(), old.table());
    // Places follow the rows: 17 tracks of nine sectors, and four sectors.
    let place = (17 * 9 + 4) * 512;
    let mut expected = old.data().to_vec();
    expected[place..place + 512].copy_from_slice(&bytes);
    assert!(disk(&controller).data() == expected);
}

#[test]
fn a_write_shows_its_phases_and_replies() {
    let mut controller = fresh();
    send(&mut controller, &write_data(FIRST));
    for byte in pattern(1, 512) {
        assert_eq!(status(&mut controller), 0xb0);
        send(&mut controller, &[byte]);
    }
    assert_eq!(status(&mut controller), 0xd0);
    let answer = read(&mut controller, 7);
    assert_eq!(answer, [0x40, 0x80, 0x00, 0x00, 0x00, 0x01, 0x02]);
    assert_eq!(status(&mut controller), 0x80);
}

#[test]
fn what_was_saved_is_read_back() {
    let mut controller = fresh();
    let bytes = pattern(99, 512);
    save(&mut controller, 39, 9, &bytes);
    let id = SectorId {
        c: 39,
        r: 9,
        ..FIRST
    };
    send(&mut controller, &read_data(id, 9));
    assert_eq!(read(&mut controller, 512), bytes);
}

#[test]
fn data_read_earlier_stay_while_the_sector_is_saved() {
    let mut controller = fresh();
    send(&mut controller, &read_data(FIRST, 1));
    send(&mut controller, &write_data(FIRST));
    send(&mut controller, &[0x11; 512]);
    assert_eq!(read(&mut controller, 512), [0xe5; 512]);
    let disk = disk(&controller);
    assert_eq!(disk.sector(0, 0, FIRST), Some(&[0x11; 512][..]));
}

#[test]
fn two_saves_to_one_sector_leave_what_the_second_alone_leaves() {
    let [mut both, mut second] = [fresh(), fresh()];
    save(&mut both, 3, 2, &pattern(1, 512));
    for controller in [&mut both, &mut second] {
        save(controller, 3, 2, &pattern(2, 512));
    }
    assert!(disk(&both).data() == disk(&second).data());
}

#[test]
fn saves_to_two_sectors_may_change_places() {
    let saves = [(3, 2, pattern(1, 512)), (4, 2, pattern(2, 512))];
    let [mut one, mut other] = [fresh(), fresh()];
    for (cylinder, r, bytes) in &saves {
        save(&mut one, *cylinder, *r, bytes);
    }
    for (cylinder, r, bytes) in saves.iter().rev() {
        save(&mut other, *cylinder, *r, bytes);
    }
    assert!(disk(&one).data() == disk(&other).data());
}

#[test]
fn the_motor_changes_no_save() {
    let [mut on, mut off] = [fresh(), fresh()];
    on.set_motor(true);
    assert!(on.motor());
    for controller in [&mut on, &mut off] {
        save(controller, 0, 1, &pattern(5, 512));
    }
    assert!(disk(&on).data() == disk(&off).data());
    on.set_motor(false);
    assert!(!on.motor());
}
