//! Reads sectors through the Rust's controller, byte by byte as a program does.

use raze::disk::Disk;
use raze::floppy::Floppy;

use crate::script::{Id, Place};

/// What Read Data gives.
pub struct Reading {
    pub data: Vec<u8>,
    pub reply: [u8; 7],
}

impl Reading {
    /// Whether no sector was found. One that is found has 0x80 or 0x10 in the
    /// second byte of its reply.
    pub fn is_missing(&self) -> bool {
        self.data.is_empty() && self.reply[1] == 0x01 && self.reply[3] == 0xff
    }
}

/// Seeks the place and reads the sector and those behind it up to number `eot`;
/// hands the disk back as well.
pub fn read(disk: Disk, [side, cylinder]: Place, [c, h, r, n]: Id, eot: u8) -> (Reading, Disk) {
    let mut floppy = Floppy::new();
    floppy.set_disk(Some(disk));
    let head = side * 4;
    send(&mut floppy, &[0x0f, head, cylinder]);
    send(&mut floppy, &[0x46, head, c, h, r, n, eot, 0x2a, 0xff]);
    let (data, reply) = floppy.unread();
    assert_eq!(reply, 7, "Read Data has a reply of seven bytes");
    let reading = Reading {
        data: (0..data).map(|_| floppy.read_cmd()).collect(),
        reply: [(); 7].map(|()| floppy.read_cmd()),
    };
    let disk = floppy.take_disk().expect("the disk is still in");
    (reading, disk)
}

fn send(floppy: &mut Floppy, command: &[u8]) {
    command.iter().for_each(|&byte| floppy.write_cmd(byte));
}
