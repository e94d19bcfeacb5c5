//! The Rust's controller and the library's, side by side: each call is made on
//! both, and answers and boxes are compared.

mod refused;
mod sheets;

use std::fmt;

use raze::disk::Disk;

use crate::buffer::Buffer;
use crate::capacities::Totals;
use crate::chance::Chance;
use crate::datasheet::{Machine, Model};
use crate::found::Match;
use crate::host::{self, Address, CONTROLLER};
use crate::rules::{self, Lent, Look};
use crate::store::Store;
use crate::view::{HELD, Rust, SETTING, View};
use crate::watch::{Checked, Difference, Watch};
use crate::{homes, lookups};

/// A disk: the Rust's, while it is not in the drive, and its store.
pub struct Kept {
    pub rust: Option<Disk>,
    pub store: Store,
}

/// Both controllers, the disks, and which of them is in the drive.
pub struct Pair<'a> {
    rust: Model,
    controller: Vec<u8>,
    disks: Vec<Kept>,
    slot: Option<usize>,
    pub transfer: Buffer,
    /// How many bytes the last Read Data or the last sheet laid in the transfer buffer.
    filled: usize,
    /// The sector that the last byte sent told of.
    found: Option<Match>,
    watch: &'a mut Watch,
}

impl Pair<'_> {
    /// New controllers of this machine with these disks, none of which is in the drive,
    /// and this transfer buffer.
    pub fn new<'a>(
        machine: Machine,
        disks: Vec<Kept>,
        transfer: Buffer,
        chance: &mut Chance,
        watch: &'a mut Watch,
    ) -> Checked<Pair<'a>> {
        let controller = new_controller(machine, chance, watch)?;
        Ok(Pair {
            rust: Model::new(machine),
            controller,
            disks,
            slot: None,
            transfer,
            filled: 0,
            found: None,
            watch,
        })
    }

    /// The Rust's controller, with what the data-sheet machine has beside it.
    pub fn rust(&self) -> &Model {
        &self.rust
    }

    /// How many bytes the last Read Data or the last sheet laid in the transfer buffer.
    pub fn filled(&self) -> usize {
        self.filled
    }

    /// The sector that the last byte sent told of, on both sides.
    pub fn found(&self) -> Option<Match> {
        self.found
    }

    /// Which disk is in the drive.
    pub fn slot(&self) -> Option<usize> {
        self.slot
    }

    /// Tells what happens beside the calls, where each call is told.
    pub fn say(&self, words: impl fmt::Display) {
        self.watch.say(words);
    }

    /// How many disks there are.
    pub fn disks(&self) -> usize {
        self.disks.len()
    }

    /// The store that is lent: that of the disk in the drive, or of the first one.
    pub fn store(&mut self) -> &mut Store {
        &mut self.disks[self.slot.unwrap_or(0)].store
    }

    /// Reads the status, and answers it.
    pub fn status(&mut self) -> Checked<u8> {
        let answer = host::read_status(&mut self.controller);
        let status = self.rust.read_status();
        self.watch.call("status");
        self.same("status", status.into(), answer)?;
        Ok(status)
    }

    /// Reads the data port, and answers the byte, 0 where it is refused.
    pub fn read(&mut self) -> Checked<u8> {
        let before = self.refuses_data().then(|| self.controller.clone());
        let answer = host::read_cmd(&mut self.controller, self.transfer.part());
        self.watch.call("data read");
        if let Some(before) = before {
            self.refused("read", 1, answer, &before)?;
            return Ok(0);
        }
        let byte = self.rust.read_cmd();
        self.same("read", byte.into(), answer)?;
        Ok(byte)
    }

    /// Switches the motor.
    pub fn motor(&mut self, on: u8) -> Checked {
        let answer = host::set_motor(&mut self.controller, on);
        self.rust.set_motor(on != 0);
        self.watch.call("set_motor");
        self.same(format_args!("motor {on}"), 0, answer)
    }

    /// Asks for setting, motor, cylinder and disk.
    pub fn ask(&mut self) -> Checked {
        let before = self.controller.clone();
        let setting = host::setting(&self.controller);
        let motor = host::motor(&self.controller);
        let track = host::current_track(&self.controller);
        let disk = host::disk(&self.controller);
        for name in ["setting", "motor", "current_track", "disk"] {
            self.watch.call(name);
        }
        let machine = self.rust.machine().number();
        self.same("ask for the setting", machine.into(), setting)?;
        self.same("ask for the motor", self.rust.motor().into(), motor)?;
        self.same("ask for the track", self.rust.current_track().into(), track)?;
        self.same("ask for the disk", self.rust.disk().is_some().into(), disk)?;
        self.controller_is(&before, "ask")
    }

    /// Takes the disk out of the Rust's drive.
    fn take_out(&mut self) -> Checked {
        let out = self.rust.take_disk();
        if let Some(old) = self.slot.take() {
            self.disks[old].rust = out;
            self.disks[old]
                .store
                .compare("a disk taken out", self.watch)?;
        }
        Ok(())
    }

    /// Takes the disk out of the drive, and puts another in, or none.
    pub fn put(&mut self, slot: Option<usize>, present: u8) -> Checked {
        self.take_out()?;
        self.slot = slot;
        let disk = slot.and_then(|number| self.disks[number].rust.take());
        self.rust.set_disk(disk);
        let present = if slot.is_some() { present.max(1) } else { 0 };
        let answer = host::set_disk(&mut self.controller, present);
        self.watch.call("set_disk");
        self.same(format_args!("put {slot:?}"), 0, answer)
    }

    /// Sends a byte. Answers the refusal number, 0 where it is taken.
    pub fn send(&mut self, b: u8) -> Checked<u8> {
        self.send_with(b, None)
    }

    /// Sends a byte that is not refused.
    pub fn taken(&mut self, b: u8) -> Checked {
        let number = self.send(b)?;
        if number == 0 {
            return Ok(());
        }
        let (call, ours) = (format!("send {b:02x}"), format!("refusal {number}"));
        Err(Difference::new(call, "a byte taken", ours))
    }

    /// Sends a byte. Where a table is named, which breaks the layout, it is lent in
    /// place of the good one.
    pub fn send_with(&mut self, b: u8, table: Option<&[u8]>) -> Checked<u8> {
        let look = rules::look(&self.rust, b);
        self.found = None;
        let refusal = self
            .lent(table.is_none())
            .refusal(&self.rust, look.as_ref());
        let before = (refusal != 0).then(|| self.controller.clone());
        let answer = self.call_write(b, table)?;
        self.watch.call("byte sent");
        if let Some(table) = table {
            let length = table.len();
            self.say(format_args!("a broken table of {length} bytes is lent to"));
        }
        if let Some(before) = before {
            self.refused(format_args!("send {b:02x}"), refusal, answer, &before)?;
            return Ok(refusal);
        }
        self.found = look.as_ref().and_then(|look| look.finds(&self.rust));
        self.watch
            .found(["sector told", "equal IDs told"], self.found);
        self.write_rust(b);
        let expected = Match::word(self.found);
        self.same(format_args!("send {b:02x}"), expected, answer)?;
        if let Some(look) = &look {
            self.say(look.name());
        }
        match look {
            Some(Look::Format(_) | Look::Save { .. }) => self.compare_disk()?,
            Some(Look::Read { .. }) => self.compare_data(self.found.is_some())?,
            _ => {}
        }
        Ok(0)
    }

    /// Sends a byte that is taken to the Rust's side, and counts Formats by their IDs.
    fn write_rust(&mut self, b: u8) {
        let before = self.rust.format().is_some();
        self.rust.write_cmd(b);
        match (before, self.rust.format().is_some()) {
            (false, true) => self.watch.count("formats by IDs begun"),
            (true, false) => self.watch.count("formats by IDs ended"),
            _ => {}
        }
    }

    fn call_write(&mut self, b: u8, table: Option<&[u8]>) -> Checked<u64> {
        let store = &mut self.disks[self.slot.unwrap_or(0)].store;
        let (data, transfer) = (store.data.part_mut(), self.transfer.part_mut());
        let Some(broken) = table else {
            let table = store.table.part_mut();
            return Ok(host::write_cmd(
                &mut self.controller,
                table,
                data,
                transfer,
                b,
            ));
        };
        let mut lent = broken.to_vec();
        let answer = host::write_cmd(&mut self.controller, &mut lent, data, transfer, b);
        if lent != broken {
            let call = format!("send {b:02x} with a broken table");
            return Err(Difference::new(call, "the table as it was", "another"));
        }
        Ok(answer)
    }

    /// What is lent to a call.
    fn lent(&self, good_table: bool) -> Lent {
        let store = &self.disks[self.slot.unwrap_or(0)].store;
        Lent {
            good_table,
            data: store.data.lent(),
            transfer: self.transfer.lent(),
            filled: self.filled,
        }
    }

    /// Compares a word, and then the boxes.
    fn same(&mut self, call: impl fmt::Display, expected: u64, answer: u64) -> Checked {
        self.watch.say(format_args!(
            "{call}: Rust {expected:#04x}, library {answer:#04x}"
        ));
        if answer != expected {
            let (expected, answer) = (format!("{expected:#x}"), format!("{answer:#x}"));
            return Err(Difference::new(call, expected, answer));
        }
        self.watch.compared(HELD);
        match View(&self.controller).differs(&self.rust) {
            None => Ok(()),
            Some(name) => {
                let call = format!("{call}: {name}");
                Err(Difference::new(
                    call,
                    Rust(&self.rust),
                    View(&self.controller),
                ))
            }
        }
    }

    /// Compares the store of the disk in the drive, which was changed, with the
    /// Rust's disk.
    fn compare_disk(&mut self) -> Checked {
        if let (Some(slot), Some(disk)) = (self.slot, self.rust.disk()) {
            let store = &mut self.disks[slot].store;
            store.expect(disk);
            store.compare("the disk after a format or save", self.watch)?;
        }
        Ok(())
    }

    /// Compares the unread data. Where a Read Data has just served them, they lie
    /// at the start of the transfer buffer, and behind them it is as it was.
    pub fn compare_data(&mut self, served: bool) -> Checked {
        let unread = self.rust.boxes().data;
        if served {
            self.filled = unread.len();
            self.transfer.expect(unread);
        }
        let (from, until) = View(&self.controller).data();
        if self.transfer.part().get(from..until).unwrap_or(&[]) != unread {
            let (unread, ours) = (format!("{unread:02x?}"), format!("{from} to {until}"));
            return Err(Difference::new("the unread data", unread, ours));
        }
        self.compare_transfer("the transfer buffer")
    }

    fn compare_transfer(&mut self, call: &str) -> Checked {
        self.watch.compared(self.transfer.length());
        match self.transfer.wrong() {
            None => Ok(()),
            Some((place, expected, byte)) => {
                let call = format!("{call}: transfer byte {place}");
                Err(Difference::new(call, expected, byte))
            }
        }
    }

    /// Compares geometry and lookups of the disk in the drive, if it is lent whole.
    pub fn lookups(&mut self, chance: &mut Chance) -> Checked {
        if let (Some(slot), Some(disk)) = (self.slot, self.rust.disk()) {
            let store = &self.disks[slot].store;
            if Totals::of(disk).refusal_in(store.data.lent()).is_none() {
                lookups::compare(disk, store, chance, self.watch)?;
            }
        }
        Ok(())
    }

    /// Compares what is found at an address of the disk in the drive, which is lent whole.
    pub fn lookup(&mut self, address: Address) -> Checked {
        match (self.slot, self.rust.disk()) {
            (Some(slot), Some(disk)) => {
                lookups::compare_at(disk, &self.disks[slot].store, address, self.watch)
            }
            _ => Ok(()),
        }
    }

    /// Compares everything in the end: the disks that are out, and that in the
    /// drive; then each of them goes home.
    pub fn finish(&mut self, chance: &mut Chance) -> Checked {
        self.transfer.lend(self.transfer.length());
        self.compare_data(false)?;
        self.put(None, 0)?;
        for Kept { rust, store } in &mut self.disks {
            if let Some(disk) = rust {
                store.expect(disk);
            }
            store.compare("a disk at the end", self.watch)?;
            if let Some(disk) = rust {
                homes::compare_at_end(disk, store, chance, self.watch)?;
            }
        }
        Ok(())
    }

    /// Both states in words.
    pub fn states(&self) -> String {
        format!(
            "Rust      {}\nlibrary   {}\nlent      data {} transfer {}, filled {}",
            Rust(&self.rust),
            View(&self.controller),
            self.lent(true).data,
            self.transfer.lent(),
            self.filled
        )
    }
}

/// The bytes of a new controller of this machine, made over noise: zeros, but for the
/// setting. The Rust machine is also made without one. Of a setting only bit 0 counts.
fn new_controller(machine: Machine, chance: &mut Chance, watch: &mut Watch) -> Checked<Vec<u8>> {
    let mut controller = chance.bytes(CONTROLLER);
    let setting = chance.byte() & 0xfe | machine.number();
    let answer = if machine == Machine::Rust && chance.once_in(2) {
        watch.call("new");
        host::new(&mut controller)
    } else {
        watch.call("new_with");
        host::new_with(&mut controller, setting)
    };
    let mut expected = vec![0; CONTROLLER];
    expected[SETTING] = machine.number();
    if answer == 0 && controller == expected {
        return Ok(controller);
    }
    let ours = format!("answer {answer:#x}, {}", View(&controller));
    let call = format!("new of {machine:?}, setting {setting:#x}");
    Err(Difference::new(call, View(&expected), ours))
}
