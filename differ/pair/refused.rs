//! Calls that are refused, which the Rust does not know: the number is compared,
//! and that every lent byte is as it was.

use std::fmt;
use std::ops::Range;

use super::Pair;
use crate::capacities::MOST_TRANSFER;
use crate::chance::Chance;
use crate::host::CONTROLLER;
use crate::view::{C1, COUNT, CYLINDER, FILL, HELD, KIND, PLACE, REPLY, View};
use crate::watch::{Checked, Difference};
use crate::{faults, host};

/// The numbers of the calls that are lent the transfer buffer; how many calls there are
/// but for the two that make a controller, and are refused for a wrong length only.
const LENT_TRANSFER: Range<usize> = 7..10;
const NEW: usize = 10;
const CALLS: usize = NEW + 2;

impl Pair<'_> {
    /// Whether a call that is lent the transfer buffer is refused, because the
    /// data reach beyond it.
    pub(super) fn refuses_data(&self) -> bool {
        !self.lent(true).holds_data()
    }

    /// Compares the answer of a refused call, and that nothing has changed.
    pub(super) fn refused(
        &mut self,
        call: impl fmt::Display,
        number: u8,
        answer: u64,
        before: &[u8],
    ) -> Checked {
        self.watch.say(format_args!(
            "{call}: expected refusal {number}, library {answer:#06x}"
        ));
        self.watch.refusal("call", number);
        if answer != host::refused(number) {
            let expected = format!("{:#x}, refusal {number}", host::refused(number));
            return Err(Difference::new(call, expected, format!("{answer:#x}")));
        }
        let call = format!("{call}, refused {number}");
        self.controller_is(before, &call)?;
        self.compare_transfer(&call)?;
        let store = &self.disks[self.slot.unwrap_or(0)].store;
        store.compare(&call, self.watch)
    }

    pub(super) fn controller_is(&mut self, before: &[u8], call: &str) -> Checked {
        self.watch.compared(before.len());
        if self.controller == before {
            return Ok(());
        }
        let call = format!("{call}: the controller");
        Err(Difference::new(call, View(before), View(&self.controller)))
    }

    /// Makes some call with a controller that cannot be: 1, and nothing changes.
    pub fn impossible(&mut self, chance: &mut Chance) -> Checked {
        if chance.once_in(8) {
            let room = self.transfer.lent().min(MOST_TRANSFER);
            let wrong = faults::beyond(&self.controller, room, chance);
            return self.refuses(wrong, LENT_TRANSFER, chance);
        }
        let wrong = faults::impossible(&self.controller, chance);
        let calls = if wrong.len() == CONTROLLER {
            0..NEW
        } else {
            0..CALLS
        };
        self.refuses(wrong, calls, chance)
    }

    /// Makes one of the calls with this controller, which it refuses.
    fn refuses(&mut self, wrong: Vec<u8>, calls: Range<usize>, chance: &mut Chance) -> Checked {
        let good = std::mem::replace(&mut self.controller, wrong.clone());
        let number = calls.start + chance.below(calls.len());
        let (name, answer) = self.call(number, chance)?;
        let call = format!("{name} with impossible bytes");
        self.refused(call, 1, answer, &wrong)?;
        self.controller = good;
        Ok(())
    }

    /// The call of this number, as the library has it.
    fn call(&mut self, number: usize, chance: &mut Chance) -> Checked<(&'static str, u64)> {
        let controller = &mut self.controller;
        let store = &mut self.disks[self.slot.unwrap_or(0)].store;
        let (name, answer) = match number {
            0 => ("set_motor", host::set_motor(controller, chance.byte())),
            1 => ("motor", host::motor(controller)),
            2 => ("current_track", host::current_track(controller)),
            3 => ("set_disk", host::set_disk(controller, chance.byte())),
            4 => ("disk", host::disk(controller)),
            5 => ("status", host::read_status(controller)),
            6 => ("setting", host::setting(controller)),
            7 => {
                let transfer = self.transfer.part();
                ("data read", host::read_cmd(controller, transfer))
            }
            8 => {
                let (table, data) = (store.table.part_mut(), store.data.part_mut());
                let transfer = self.transfer.part_mut();
                let b = chance.byte();
                let answer = host::write_cmd(controller, table, data, transfer, b);
                ("byte sent", answer)
            }
            9 => ("sheet written", self.write_impossible(chance)?),
            NEW => ("new", host::new(controller)),
            _ => ("new_with", host::new_with(controller, chance.byte())),
        };
        self.watch.call(name);
        Ok((name, answer))
    }

    /// Changes bytes of the controller that do not count: of a command, a reply and
    /// a write behind their ends, and of a write where none is in progress, whose kind
    /// stays one of the two.
    pub fn scramble(&mut self, chance: &mut Chance) -> Checked {
        let bytes = &mut self.controller;
        let mut noise = chance.bytes(bytes.len());
        noise[KIND] &= 1;
        let count: usize = bytes[COUNT].into();
        let read = REPLY + usize::from(bytes[PLACE]);
        let filled = REPLY + usize::from(bytes[FILL]);
        let (numbers, behind) = match View(bytes).held() {
            None => (C1..CYLINDER, KIND),
            Some((_, held)) => (0..0, HELD + held.len()),
        };
        let dead = [
            count..COUNT,
            REPLY..read,
            filled..PLACE,
            numbers,
            behind..bytes.len(),
        ];
        for range in dead {
            bytes[range.clone()].copy_from_slice(&noise[range]);
        }
        self.say("bytes of the controller that do not count are changed");
        match View(&self.controller).differs(&self.rust) {
            None => Ok(()),
            Some(name) => Err(Difference::new("bytes that do not count", "the same", name)),
        }
    }
}
