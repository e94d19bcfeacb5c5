//! The three ports of a controller, of the Rust and of the library.

use raze::floppy::Floppy;

use crate::host::{self, CONTROLLER, TABLE};

/// What a program has of a controller.
pub trait Port {
    fn status(&mut self) -> u8;
    fn read(&mut self) -> u8;
    fn send(&mut self, b: u8);
}

impl Port for Floppy {
    fn status(&mut self) -> u8 {
        self.read_status()
    }

    fn read(&mut self) -> u8 {
        self.read_cmd()
    }

    fn send(&mut self, b: u8) {
        self.write_cmd(b);
    }
}

/// The library's controller with all that is lent to it.
pub struct Ours {
    controller: Vec<u8>,
    table: Vec<u8>,
    data: Vec<u8>,
    transfer: Vec<u8>,
}

impl Ours {
    /// A new controller with a fresh disk in its drive, and room for another side.
    pub fn new() -> Ours {
        let mut ours = Ours {
            controller: vec![0; CONTROLLER],
            table: vec![0; TABLE],
            data: vec![0; 2 * 40 * 9 * 512],
            transfer: vec![0; 65_536],
        };
        taken(host::new(&mut ours.controller));
        taken(host::disk_new_formatted(&mut ours.table, &mut ours.data));
        taken(host::set_disk(&mut ours.controller, 1));
        ours
    }
}

/// The byte of an answer, which is no refusal.
fn taken(answer: u64) -> u8 {
    assert!(answer >> 8 & 0xff == 0, "refused: {answer:#x}");
    answer as u8
}

impl Port for Ours {
    fn status(&mut self) -> u8 {
        taken(host::read_status(&mut self.controller))
    }

    fn read(&mut self) -> u8 {
        taken(host::read_cmd(&mut self.controller, &self.transfer))
    }

    fn send(&mut self, b: u8) {
        taken(host::write_cmd(
            &mut self.controller,
            &mut self.table,
            &mut self.data,
            &mut self.transfer,
            b,
        ));
    }
}
