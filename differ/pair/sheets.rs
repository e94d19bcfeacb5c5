//! Sheets: the library's controller written out and read back, beside the sheet of
//! the Rust's boxes; and bytes that are read as a sheet, beside what they hold by the
//! words of requests 2026-01 and 2026-06. The Rust has neither call.

use std::mem;

use super::Pair;
use crate::buffer::Buffer;
use crate::chance::Chance;
use crate::datasheet::Machine;
use crate::host::{self, CONTROLLER, SHEET};
use crate::sheet::Sheet;
use crate::view::DISK;
use crate::watch::{Checked, Difference};

/// The refusal numbers of a controller that cannot be, or of another length, and of
/// a buffer that is too short for a sheet.
const IMPOSSIBLE: u8 = 1;
const SHORT: u8 = 13;

impl Pair<'_> {
    /// Writes the library's controller out, and reads it back over buffers of noise,
    /// if it can be written; now and then from the version before. The Rust goes on as it
    /// was.
    pub fn pause(&mut self, chance: &mut Chance) -> Checked {
        let mut sheet = self.sheet();
        if chance.once_in(4) {
            self.write_sheet(room(sheet.len(), chance), chance)?;
        }
        if self.write_sheet(sheet.len(), chance)? != 0 {
            return Ok(());
        }
        if self.rust.machine() == Machine::Rust && chance.once_in(4) {
            sheet = Sheet::of(&self.rust).old_bytes();
        }
        self.transfer.renew(chance);
        self.read_wrongly(&sheet, chance)?;
        self.read_short(&sheet, chance)?;
        self.read_sheet(&sheet, chance)?;
        self.put_again()?;
        self.compare_data(false)
    }

    /// Reads bytes as a sheet. Where they are one, the Rust's boxes are set, and its
    /// disk is out. Answers the refusal number, 0 where there is none.
    pub fn resume(&mut self, bytes: &[u8], chance: &mut Chance) -> Checked<u8> {
        let judged = Sheet::read(bytes, self.transfer.lent());
        self.read_wrongly(bytes, chance)?;
        if judged.is_ok() {
            self.transfer.renew(chance);
        }
        let refusal = self.read_sheet(bytes, chance)?;
        if let Ok(sheet) = judged {
            self.take_out()?;
            sheet.set(&mut self.rust);
            self.same("the boxes of a sheet", 0, 0)?;
            self.compare_data(false)?;
        }
        Ok(refusal)
    }

    /// Writes the library's controller, which cannot be, out to a buffer of noise, and
    /// compares that this stays. Answers the word.
    pub(super) fn write_impossible(&mut self, chance: &mut Chance) -> Checked<u64> {
        let length = chance.of(&[0, 36, 2_000]);
        let mut paper = Buffer::new(length, 9, chance);
        let transfer = self.transfer.part();
        let answer = host::write_sheet(&self.controller, transfer, paper.part_mut());
        self.compare_paper("a sheet of impossible bytes", &paper)?;
        Ok(answer)
    }

    /// The sheet of the Rust's boxes.
    fn sheet(&self) -> Vec<u8> {
        Sheet::of(&self.rust).bytes()
    }

    /// Writes the library's controller out to a buffer of this length. Answers the
    /// refusal number.
    fn write_sheet(&mut self, length: usize, chance: &mut Chance) -> Checked<u8> {
        let sheet = self.sheet();
        let refusal = if self.refuses_data() {
            IMPOSSIBLE
        } else if length < sheet.len() {
            SHORT
        } else {
            0
        };
        let before = self.controller.clone();
        let mut paper = Buffer::new(length, chance.below(20), chance);
        let answer = host::write_sheet(&self.controller, self.transfer.part(), paper.part_mut());
        self.watch.call("sheet written");
        let mut expected = host::refused(refusal);
        if refusal == 0 {
            expected = (sheet.len() as u64) << 32;
            paper.expect(&sheet);
        }
        let call = format!("a sheet written to {length} bytes");
        self.word(&call, refusal, expected, answer)?;
        self.controller_is(&before, &call)?;
        self.compare_transfer(&call)?;
        self.compare_paper(&call, &paper)?;
        Ok(refusal)
    }

    /// Reads bytes as a sheet into a controller of noise, which is then the library's
    /// where they are one. Answers the refusal number.
    fn read_sheet(&mut self, bytes: &[u8], chance: &mut Chance) -> Checked<u8> {
        let judged = Sheet::read(bytes, self.transfer.lent());
        let refusal = judged.as_ref().err().copied().unwrap_or(0);
        let good = self.read_into(chance.bytes(CONTROLLER), bytes, refusal)?;
        let Ok(sheet) = judged else {
            self.controller = good;
            return Ok(refusal);
        };
        self.transfer.expect(&sheet.data);
        self.filled = sheet.data.len();
        self.compare_transfer("a sheet read")?;
        match self.controller[DISK] {
            0 => Ok(0),
            disk => Err(Difference::new("a sheet read", "no disk", disk)),
        }
    }

    /// Now and then reads bytes as a sheet, or noise, into a controller of another
    /// length: 1, whatever they are.
    fn read_wrongly(&mut self, bytes: &[u8], chance: &mut Chance) -> Checked {
        if !chance.once_in(8) {
            return Ok(());
        }
        let noise = chance.bytes(40);
        let bytes = chance.of(&[bytes, &noise]);
        let length = chance.of(&[0, 1, CONTROLLER - 1, CONTROLLER + 1]);
        let good = self.read_into(chance.bytes(length), bytes, IMPOSSIBLE)?;
        self.controller = good;
        Ok(())
    }

    /// Now and then reads a sheet with unread data over a transfer buffer that is one
    /// byte too short for them.
    fn read_short(&mut self, bytes: &[u8], chance: &mut Chance) -> Checked {
        let unread = self.rust.boxes().data.len();
        if unread == 0 || !chance.once_in(8) {
            return Ok(());
        }
        let lent = self.transfer.lent();
        self.transfer.lend(unread - 1);
        self.read_sheet(bytes, chance)?;
        self.transfer.lend(lent);
        Ok(())
    }

    /// Calls the library with this controller, and compares the word, and that nothing
    /// has changed where it is a refusal. Answers the controller that was there.
    fn read_into(&mut self, controller: Vec<u8>, bytes: &[u8], refusal: u8) -> Checked<Vec<u8>> {
        let good = mem::replace(&mut self.controller, controller.clone());
        let lent = bytes.to_vec();
        let transfer = self.transfer.part_mut();
        let answer = host::read_sheet(&mut self.controller, transfer, &lent);
        self.watch.call("sheet read");
        let call = format!("a sheet of {} bytes read", bytes.len());
        self.word(&call, refusal, host::refused(refusal), answer)?;
        if refusal != 0 {
            self.controller_is(&controller, &call)?;
            self.compare_transfer(&call)?;
        }
        if lent != bytes {
            return Err(Difference::new(call, "the sheet as it was", "another"));
        }
        Ok(good)
    }

    /// Tells the library that the disk is in which the Rust has in its drive.
    fn put_again(&mut self) -> Checked {
        let mut answer = 0;
        if self.slot.is_some() {
            answer = host::set_disk(&mut self.controller, 1);
            self.watch.call("set_disk");
        }
        self.same("a sheet read back", 0, answer)
    }

    /// Compares the word of a call, and counts a refusal.
    fn word(&mut self, call: &str, refusal: u8, expected: u64, answer: u64) -> Checked {
        self.watch.say(format_args!(
            "{call}: expected {expected:#x}, library {answer:#x}"
        ));
        self.watch.refusal("sheet", refusal);
        if answer == expected {
            return Ok(());
        }
        let (expected, answer) = (format!("{expected:#x}"), format!("{answer:#x}"));
        Err(Difference::new(call, expected, answer))
    }

    /// Compares every byte of a buffer that a sheet was to be written to.
    fn compare_paper(&mut self, call: &str, paper: &Buffer) -> Checked {
        self.watch.compared(paper.length());
        match paper.wrong() {
            None => Ok(()),
            Some((place, expected, byte)) => {
                let call = format!("{call}: byte {place}");
                Err(Difference::new(call, expected, byte))
            }
        }
    }
}

/// The length of a buffer for a sheet of so many bytes: too short, mostly by one byte,
/// or longer, now and then enough for the longest.
fn room(length: usize, chance: &mut Chance) -> usize {
    match chance.below(8) {
        0 => 0,
        1 => chance.below(length),
        2 => SHEET + chance.below(3),
        3 | 4 => length + 1 + chance.below(60),
        _ => length - 1,
    }
}
