//! Facts that a host relies on, seen through the public types. A test's name is the fact that it would show broken.

mod changes;
mod disks;
mod homes;
mod images;
mod machines;
mod noise;
mod refusals;
mod saves;
mod served;
mod sessions;
mod sheets;
mod views;

use kafondiye::{Controller, Disk, Refusal, SectorId};

/// Sector 1 of the first track of a fresh disk.
const FIRST: SectorId = SectorId {
    c: 0,
    h: 0,
    r: 1,
    n: 2,
};

/// A new controller with this disk in its drive.
fn with(disk: Disk) -> Controller {
    let mut controller = Controller::new();
    controller.set_disk(Some(disk));
    controller
}

/// A new controller with a fresh disk in its drive.
fn fresh() -> Controller {
    with(Disk::new_formatted())
}

/// Sends bytes that are all taken.
fn send(controller: &mut Controller, bytes: &[u8]) {
    for &byte in bytes {
        controller.write_cmd(byte).expect("the byte is taken");
    }
}

/// Sends bytes of which the last is refused, sees that this changes nothing, and says why it is.
fn refused(controller: &mut Controller, bytes: &[u8]) -> Refusal {
    let (last, before) = bytes.split_last().expect("there is a last byte");
    send(controller, before);
    let old = everything(controller);
    let refusal = controller
        .write_cmd(*last)
        .expect_err("the last byte is refused");
    assert!(old == everything(controller), "{refusal}");
    refusal
}

/// All that a session is: the controller's sheet, its transfer room, and every byte of the disk, if one is in.
fn everything(controller: &Controller) -> (Vec<u8>, usize, Option<Vec<u8>>) {
    let disk = controller.disk();
    (
        controller.to_sheet(),
        controller.transfer_room(),
        disk.map(|disk| [disk.table(), disk.data()].concat()),
    )
}

/// The controller and its disk, taken up from the sheet and the disk's bytes with the same transfer room.
fn taken_up(controller: &Controller) -> Controller {
    let disk = controller.disk().map(|disk| {
        let parts = (disk.table().to_vec(), disk.data().to_vec());
        Disk::from_parts(parts.0, parts.1).expect("a disk's parts")
    });
    let room = controller.transfer_room();
    let sheet = controller.to_sheet();
    let mut taken = Controller::from_sheet_with_transfer_room(&sheet, room).expect("a sheet");
    taken.set_disk(disk);
    taken
}

/// Reads the status.
fn status(controller: &mut Controller) -> u8 {
    controller.read_status().expect("a status")
}

/// Reads so many bytes from the data port.
fn read(controller: &mut Controller, count: usize) -> Vec<u8> {
    (0..count)
        .map(|_| controller.read_cmd().expect("a byte"))
        .collect()
}

/// Read Data of drive 0, head 0, up to `eot`.
fn read_data(SectorId { c, h, r, n }: SectorId, eot: u8) -> [u8; 9] {
    [0x46, 0x00, c, h, r, n, eot, 0x2a, 0xff]
}

/// Write Data of drive 0, head 0.
fn write_data(SectorId { c, h, r, n }: SectorId) -> [u8; 9] {
    [0x45, 0x00, c, h, r, n, r, 0x2a, 0xff]
}

/// Seek of drive 0.
fn seek(cylinder: u8) -> [u8; 3] {
    [0x0f, 0x00, cylinder]
}

/// Format of drive 0, head 0.
fn format(n: u8, count: u8, filler: u8) -> [u8; 6] {
    [0x4d, 0x00, n, count, 0x2a, filler]
}

/// So many bytes in which neighbours, and the bytes of different seeds, differ.
fn pattern(seed: u8, count: usize) -> Vec<u8> {
    (0..count)
        .map(|place| seed.wrapping_add((place * 31 + place / 256) as u8))
        .collect()
}
