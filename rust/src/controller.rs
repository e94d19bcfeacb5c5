//! The controller: its bytes, the transfer buffer, and the disk in the drive.

use std::fmt;
use std::mem;

use crate::{Disk, Machine, Refusal, Report, calls};

/// Why a call on a controller is not refused with 1: its bytes were made by the library, new or from a sheet
/// (`new-formed`, `sheet-formed`), nobody else alters them, and the transfer room grows only, or is judged again. Over
/// any calls they then stay those of a controller: `bytes-formed` and `bytes-tame` (docs/PROMISES.md, "Over any
/// calls"). Nor is a sheet refused with 13: the buffer is as long as the longest (`bytes-short`).
const GOOD: &str = "a controller's bytes are good: the library has made them";

/// A floppy controller with one drive.
///
/// The calls have the names and the meaning of the ports: a status register, and a data register that takes
/// command bytes and data and gives data and replies. Nothing happens between calls.
#[derive(Clone)]
pub struct Controller {
    /// The controller's bytes, and at once behind them the transfer buffer.
    bytes: Vec<u8>,
    /// Whether there is one is also written in the bytes, and always the same.
    disk: Option<Disk>,
}

impl Controller {
    /// The largest transfer room that a controller can use, in bytes.
    pub const LARGEST_TRANSFER_ROOM: usize = 65_536;

    /// A new controller of the Rust machine, with no disk and the largest transfer room.
    pub fn new() -> Controller {
        Controller::new_with(Machine::Rust)
    }

    /// A new controller of this machine, with no disk and the largest transfer room.
    ///
    /// ```
    /// use kafondiye::{Controller, Disk, Machine, Match, Refusal, SectorId};
    ///
    /// fn main() -> Result<(), Refusal> {
    ///     let mut controller = Controller::new_with(Machine::DataSheet);
    ///     controller.set_disk(Some(Disk::new_formatted()));
    ///
    ///     // Format: drive 0, head 0, two sectors of 512 bytes,
    ///     for byte in [0x4d, 0x00, 0x02, 0x02, 0x52, 0xe5] {
    ///         controller.write_cmd(byte)?;
    ///     }
    ///     // and their IDs, C1 and C2.
    ///     for byte in [0x00, 0x00, 0xc1, 0x02, 0x00, 0x00, 0xc2, 0x02] {
    ///         assert_eq!(controller.read_status()?, 0xb0);
    ///         controller.write_cmd(byte)?;
    ///     }
    ///     assert_eq!(controller.read_status()?, 0xd0);
    ///     let disk = controller.disk().expect("the disk that is in");
    ///     let last = SectorId { c: 0, h: 0, r: 0xc2, n: 2 };
    ///     assert_eq!(disk.has_sector(0, 0, last), Some(Match { place: 2, count: 1 }));
    ///     Ok(())
    /// }
    /// ```
    pub fn new_with(machine: Machine) -> Controller {
        Controller::made(machine, Controller::LARGEST_TRANSFER_ROOM)
    }

    /// A new controller of the Rust machine whose transfer buffer, in which the bytes of a Read Data lie until they
    /// are read, has this many bytes, or [`LARGEST_TRANSFER_ROOM`](Controller::LARGEST_TRANSFER_ROOM) if that is less.
    /// For the other machine, make one [with it](Controller::new_with) and
    /// [set](Controller::set_transfer_room) the room.
    pub fn with_transfer_room(room: usize) -> Controller {
        Controller::made(Machine::Rust, room)
    }

    /// A new controller of this machine with this transfer room, or the largest if that is less.
    fn made(machine: Machine, room: usize) -> Controller {
        let room = room.min(Controller::LARGEST_TRANSFER_ROOM);
        let mut bytes = vec![0; calls::controller_length() + room];
        calls::new_with(&mut bytes[..calls::controller_length()], machine)
            .expect("a new controller has the length that the library calls for");
        Controller { bytes, disk: None }
    }

    /// Which machine it is: the one that it was made with, or that of its sheet.
    pub fn machine(&self) -> Machine {
        calls::machine(self.parts().0).expect(GOOD)
    }

    /// The controller written out as a sheet, for a session that goes on later: motor, cylinder, seek state, ID
    /// index, a command that is partly sent, unread reply and data, lost count, a write in progress with its bytes so
    /// far, the machine, and a Format in progress with its IDs so far. Controllers with the same in them have the same
    /// sheet. `docs/SHEET.md` has its form.
    ///
    /// It says nothing of the disk, of which [`table`](Disk::table) and [`data`](Disk::data) are to be kept beside
    /// it, nor of the transfer room.
    ///
    /// ```
    /// use kafondiye::{Controller, Disk, Refusal, SectorId};
    ///
    /// fn main() -> Result<(), Refusal> {
    ///     let mut controller = Controller::new();
    ///     controller.set_disk(Some(Disk::new_formatted()));
    ///
    ///     // Write Data of sector 1, and of its 512 bytes the first 200.
    ///     for byte in [0x45, 0x00, 0x00, 0x00, 0x01, 0x02, 0x01, 0x2a, 0xff] {
    ///         controller.write_cmd(byte)?;
    ///     }
    ///     for _ in 0..200 {
    ///         controller.write_cmd(0x11)?;
    ///     }
    ///
    ///     // In the evening the controller and its disk are kept,
    ///     let sheet = controller.to_sheet();
    ///     let disk = controller.set_disk(None).expect("the disk that is in");
    ///     let (table, data) = (disk.table().to_vec(), disk.data().to_vec());
    ///
    ///     // and in the morning both are taken up.
    ///     let mut controller = Controller::from_sheet(&sheet)?;
    ///     controller.set_disk(Some(Disk::from_parts(table, data)?));
    ///
    ///     // The write goes on where it was left.
    ///     assert_eq!(controller.read_status()?, 0xb0);
    ///     for _ in 200..512 {
    ///         controller.write_cmd(0x22)?;
    ///     }
    ///     let disk = controller.disk().expect("the disk that is in");
    ///     let id = SectorId { c: 0, h: 0, r: 1, n: 2 };
    ///     let saved = [[0x11; 200].as_slice(), &[0x22; 312]].concat();
    ///     assert_eq!(disk.sector(0, 0, id), Some(&saved[..]));
    ///     Ok(())
    /// }
    /// ```
    pub fn to_sheet(&self) -> Vec<u8> {
        let (own, transfer) = self.parts();
        let mut sheet = vec![0; calls::sheet_length()];
        let length = calls::write_sheet(own, transfer, &mut sheet).expect(GOOD);
        sheet.truncate(length);
        sheet.shrink_to_fit();
        sheet
    }

    /// The controller of a sheet, with no disk in the drive and the largest transfer room. Once its disk is
    /// [put in](Controller::set_disk), it goes on as the one that gave the sheet would have. A sheet of version 1,
    /// which says nothing of a machine, is read as the [Rust machine](Machine::Rust).
    ///
    /// [`Refusal::BadSheet`] where the bytes are not a sheet, [`Refusal::NoTransferRoom`] where its unread data have
    /// more than 65,536 bytes, as those of no controller have.
    pub fn from_sheet(sheet: &[u8]) -> Result<Controller, Refusal> {
        Controller::from_sheet_with_transfer_room(sheet, Controller::LARGEST_TRANSFER_ROOM)
    }

    /// The same with this transfer room, or [`LARGEST_TRANSFER_ROOM`](Controller::LARGEST_TRANSFER_ROOM) if that is
    /// less: for a host that has chosen one, since a sheet does not say how large it was.
    ///
    /// [`Refusal::BadSheet`] where the bytes are not a sheet, then [`Refusal::NoTransferRoom`] where its unread data
    /// exceed the room.
    pub fn from_sheet_with_transfer_room(sheet: &[u8], room: usize) -> Result<Controller, Refusal> {
        let mut controller = Controller::with_transfer_room(room);
        let (own, transfer) = controller.parts_mut();
        calls::read_sheet(own, transfer, sheet)?;
        Ok(controller)
    }

    /// The transfer room.
    pub fn transfer_room(&self) -> usize {
        self.parts().1.len()
    }

    /// Gives the controller this transfer room, or
    /// [`LARGEST_TRANSFER_ROOM`](Controller::LARGEST_TRANSFER_ROOM) if that is less. Refused with
    /// [`Refusal::BadController`] where the bytes of the last Read Data need more.
    pub fn set_transfer_room(&mut self, room: usize) -> Result<(), Refusal> {
        let room = room.min(Controller::LARGEST_TRANSFER_ROOM);
        let (own, transfer) = self.parts();
        if room < transfer.len() {
            judge(own, &transfer[..room])?;
        }
        self.bytes.resize(calls::controller_length() + room, 0);
        Ok(())
    }

    /// Switches the motor. No command depends on it.
    pub fn set_motor(&mut self, on: bool) {
        calls::set_motor(self.parts_mut().0, on).expect(GOOD)
    }

    /// Whether the motor is on.
    pub fn motor(&self) -> bool {
        calls::motor(self.parts().0).expect(GOOD)
    }

    /// The cylinder that the head is over.
    pub fn current_track(&self) -> u8 {
        calls::current_track(self.parts().0).expect(GOOD)
    }

    /// Puts a disk into the drive, or none, and hands back the one that was there, with all changes made to it.
    ///
    /// Nothing else changes: a command that is half sent, unread data and a write in progress are carried over,
    /// and the write ends on the disk that is in the drive when its last byte comes. So does a Format that takes IDs.
    pub fn set_disk(&mut self, disk: Option<Disk>) -> Option<Disk> {
        calls::set_disk(self.parts_mut().0, disk.is_some()).expect(GOOD);
        mem::replace(&mut self.disk, disk)
    }

    /// The disk in the drive.
    pub fn disk(&self) -> Option<&Disk> {
        debug_assert_eq!(calls::disk(self.parts().0), Ok(self.disk.is_some()));
        self.disk.as_ref()
    }

    /// Reads the main status.
    ///
    /// While data are unread, every third status read with no data-port read between loses a byte of them, as the
    /// next byte from a disk overruns one that is not fetched. No status read of a `Controller` is refused.
    pub fn read_status(&mut self) -> Result<u8, Refusal> {
        calls::read_status(self.parts_mut().0)
    }

    /// Reads a byte from the data port: unread data, else an unread reply, else 0. No read of a `Controller` is
    /// refused.
    pub fn read_cmd(&mut self) -> Result<u8, Refusal> {
        let (own, transfer) = self.parts_mut();
        calls::read_cmd(own, transfer)
    }

    /// Sends a byte to the data port: of a command, of the data of a write, or of the IDs that a Format of the
    /// [data-sheet machine](Machine::DataSheet) takes. Where it ends a Read Data, a Read Deleted, a Write Data or a
    /// write, the [`Report`] says which sector of its track was found.
    ///
    /// Only the last byte of a command, of a write or of a Format's IDs can be refused: with
    /// [`Refusal::NoTransferRoom`], or with [`Refusal::TooManyTracks`], [`Refusal::TooManySectors`] or
    /// [`Refusal::NoRoom`] where the disk would grow too large. It is not taken then. It may be sent again, after
    /// [`set_transfer_room`](Controller::set_transfer_room), or after the disk was taken out, given more
    /// [room](Disk::set_room) and put in again. To be rid of a command that no room can serve, send its last byte
    /// while the disk is out: the controller replies that the drive is not ready, or after data or IDs what it replies
    /// with a disk, and no disk changes.
    ///
    /// ```
    /// use kafondiye::{Controller, Disk, Match, Refusal};
    ///
    /// fn main() -> Result<(), Refusal> {
    ///     let mut controller = Controller::new();
    ///     controller.set_disk(Some(Disk::new_formatted()));
    ///
    ///     // Read Data of sector 5: its last byte tells which one was served.
    ///     for byte in [0x46, 0x00, 0x00, 0x00, 0x05, 0x02, 0x05, 0x2a] {
    ///         assert_eq!(controller.write_cmd(byte)?.sector, None);
    ///     }
    ///     let report = controller.write_cmd(0xff)?;
    ///     assert_eq!(report.sector, Some(Match { place: 5, count: 1 }));
    ///     Ok(())
    /// }
    /// ```
    pub fn write_cmd(&mut self, byte: u8) -> Result<Report, Refusal> {
        let (own, transfer) = self.bytes.split_at_mut(calls::controller_length());
        let (table, data) = match &mut self.disk {
            Some(disk) => disk.buffers(),
            None => Default::default(),
        };
        calls::write_cmd(own, table, data, transfer, byte)
    }

    /// The controller's own bytes and the transfer buffer.
    fn parts(&self) -> (&[u8], &[u8]) {
        self.bytes.split_at(calls::controller_length())
    }

    /// The same, to be changed.
    fn parts_mut(&mut self) -> (&mut [u8], &mut [u8]) {
        self.bytes.split_at_mut(calls::controller_length())
    }
}

/// Whether these are the bytes of a controller whose data lie in this transfer buffer. A data-port read is the one
/// call that judges both and needs no disk; it is done to a copy.
fn judge(own: &[u8], transfer: &[u8]) -> Result<(), Refusal> {
    calls::read_cmd(&mut own.to_vec(), transfer).map(|_| ())
}

impl Default for Controller {
    fn default() -> Controller {
        Controller::new()
    }
}

/// Shows what a host can ask, and nothing of what was read or written.
impl fmt::Debug for Controller {
    fn fmt(&self, f: &mut fmt::Formatter<'_>) -> fmt::Result {
        f.debug_struct("Controller")
            .field("machine", &self.machine())
            .field("motor", &self.motor())
            .field("current_track", &self.current_track())
            .field("disk", &self.disk)
            .field("transfer_room", &self.transfer_room())
            .finish_non_exhaustive()
    }
}
