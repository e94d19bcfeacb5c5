//! A disk as both sides have it: the Rust's, and a store in two lent buffers.

use std::io::Cursor;

use raze::disk::Disk;

use crate::buffer::Buffer;
use crate::capacities::Totals;
use crate::chance::Chance;
use crate::host::{self, TABLE};
use crate::watch::{Checked, Difference, Watch};
use crate::{errors, layout};

/// How many bytes stand behind a table of the right length.
const BEHIND: usize = 9;

/// The table and the data of a store.
pub struct Store {
    pub table: Buffer,
    pub data: Buffer,
}

impl Store {
    /// A store of noise, with so many bytes for data, and more behind them.
    pub fn new(data: usize, more: usize, chance: &mut Chance) -> Store {
        Store {
            table: Buffer::new(TABLE, BEHIND, chance),
            data: Buffer::new(data, more, chance),
        }
    }

    /// The store should now hold this disk.
    pub fn expect(&mut self, disk: &Disk) {
        let (table, data) = layout::laid(disk);
        self.table.expect(&table);
        self.data.expect(&data);
    }

    /// Compares every byte with what it should be.
    pub fn compare(&self, call: &str, watch: &mut Watch) -> Checked {
        watch.compared(self.table.length() + self.data.length());
        if let Some((place, expected, byte)) = self.table.wrong() {
            let what = layout::at(self.table.part(), place);
            let call = format!("{call}: table byte {place} ({what})");
            return Err(Difference::new(call, expected, byte));
        }
        if let Some((place, expected, byte)) = self.data.wrong() {
            let call = format!("{call}: data byte {place}");
            return Err(Difference::new(call, expected, byte));
        }
        Ok(())
    }

    /// Calls the library's load, and compares answer and bytes with what the Rust
    /// makes of the image.
    pub fn load(
        &mut self,
        image: &[u8],
        rust: &Result<Disk, u8>,
        watch: &mut Watch,
    ) -> Checked<u8> {
        let before = image.to_vec();
        let answer = host::disk_new(image, self.table.part_mut(), self.data.part_mut());
        let call = format!("load of {} bytes", image.len());
        watch.call("load");
        let refusal = self.settle(&call, rust, answer, watch)?;
        if image != before {
            return Err(Difference::new(
                call,
                "the image as it was",
                "another image",
            ));
        }
        Ok(refusal)
    }

    /// The same for a fresh disk.
    pub fn fresh(&mut self, watch: &mut Watch) -> Checked<u8> {
        let answer = host::disk_new_formatted(self.table.part_mut(), self.data.part_mut());
        watch.call("fresh format");
        self.settle("fresh format", &Ok(Disk::new_formatted()), answer, watch)
    }

    fn settle(
        &mut self,
        call: &str,
        rust: &Result<Disk, u8>,
        answer: u64,
        watch: &mut Watch,
    ) -> Checked<u8> {
        let (rows, room) = (self.table.lent(), self.data.lent());
        let refusal = match rust {
            _ if rows != TABLE => 2,
            Err(number) => *number,
            Ok(disk) => Totals::of(disk).refusal_in(room).unwrap_or(0),
        };
        let call = format!("{call} with table {rows}, data {room}");
        watch.say(format_args!(
            "{call}: expected {refusal}, library {answer:#x}"
        ));
        if answer != host::refused(refusal) {
            let expected = format!("{:#x}", host::refused(refusal));
            return Err(Difference::new(call, expected, format!("{answer:#x}")));
        }
        if refusal == 0
            && let Ok(disk) = rust
        {
            self.expect(disk);
        }
        self.compare(&call, watch)?;
        Ok(refusal)
    }
}

/// What the Rust makes of an image: a disk, or a refusal number.
pub fn rust_load(image: &[u8]) -> Checked<Result<Disk, u8>> {
    match Disk::new(Cursor::new(image)) {
        Ok(disk) => Ok(Ok(disk)),
        Err(error) => match errors::refusal(&error) {
            Some(number) => Ok(Err(number)),
            None => Err(Difference::new("load", error, "an error without a number")),
        },
    }
}
