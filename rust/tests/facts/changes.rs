//! Disk changes: what is carried over, and where a write in progress ends.

use kafondiye::{Disk, SectorId};

use crate::images::{self, Track};
use crate::{FIRST, fresh, pattern, read, read_data, seek, send, status, with, write_data};

/// A disk with one sector, whose bytes are these.
fn one_sector(id: SectorId, bytes: &[u8]) -> Disk {
    let sectors = vec![(id, bytes.to_vec())];
    let image = images::extended(&[Track {
        cylinder: 0,
        sectors,
    }]);
    Disk::from_image(&image).expect("a good image")
}

#[test]
fn a_write_ends_on_the_disk_that_is_in_then() {
    let mut controller = fresh();
    let bytes = pattern(3, 512);
    send(&mut controller, &write_data(FIRST));
    send(&mut controller, &bytes[..200]);
    let first = controller.set_disk(Some(one_sector(FIRST, &[1; 512])));
    assert_eq!(status(&mut controller), 0xb0);
    send(&mut controller, &bytes[200..]);
    let answer = read(&mut controller, 7);
    assert_eq!(answer, [0x40, 0x80, 0x00, 0x00, 0x00, 0x01, 0x02]);
    let second = controller.set_disk(None).expect("the second disk");
    assert_eq!(second.sector(0, 0, FIRST), Some(&bytes[..]));
    let first = first.expect("the first disk");
    assert!(first.data() == Disk::new_formatted().data());
}

#[test]
fn a_write_to_a_sector_of_another_length_takes_its_length() {
    let mut controller = with(one_sector(FIRST, &[1; 10]));
    send(&mut controller, &write_data(FIRST));
    send(&mut controller, &[2; 512]);
    let disk = controller.disk().expect("a disk");
    assert_eq!(disk.sector(0, 0, FIRST), Some(&[2; 512][..]));
}

#[test]
fn a_write_without_a_match_at_its_end_changes_no_disk() {
    let other = SectorId { r: 2, ..FIRST };
    for disk in [None, Some(one_sector(other, &[1; 512]))] {
        let old = disk.clone();
        let mut controller = fresh();
        send(&mut controller, &write_data(FIRST));
        controller.set_disk(disk);
        send(&mut controller, &[2; 512]);
        let answer = read(&mut controller, 7);
        assert_eq!(answer, [0x40, 0x80, 0x00, 0x00, 0x00, 0x01, 0x02]);
        let bytes = |disk: &Disk| [disk.table(), disk.data()].concat();
        assert!(controller.disk().map(bytes) == old.as_ref().map(bytes));
    }
}

#[test]
fn a_disk_change_carries_over_everything_else() {
    let mut controller = fresh();
    controller.set_motor(true);
    send(&mut controller, &seek(7));
    send(&mut controller, &read_data(SectorId { c: 7, ..FIRST }, 1));
    send(&mut controller, &[0x04]);
    assert!(controller.set_disk(None).is_some());
    assert!(controller.disk().is_none());
    assert!(controller.set_disk(Some(Disk::new_formatted())).is_none());
    assert!(controller.motor());
    assert_eq!(controller.current_track(), 7);
    assert_eq!(status(&mut controller), 0xf1);
    assert_eq!(read(&mut controller, 512), [0xe5; 512]);
    assert_eq!(read(&mut controller, 7)[0], 0x40);
    send(&mut controller, &[0x00]);
    assert_eq!(read(&mut controller, 1), [0x28]);
}

#[test]
fn the_disk_that_is_handed_back_has_the_changes() {
    let mut controller = fresh();
    send(&mut controller, &write_data(FIRST));
    send(&mut controller, &[9; 512]);
    let disk = controller.set_disk(Some(Disk::new_formatted()));
    let disk = disk.expect("the changed disk");
    assert_eq!(disk.sector(0, 0, FIRST), Some(&[9; 512][..]));
}
