//! Disks that go home: a store is written as an extended image, beside the image of
//! the Rust's disk by the words of request 2026-03. The Rust writes none, but it reads
//! what was written.

mod fixed;

use raze::disk::Disk;

use crate::buffer::Buffer;
use crate::capacities::Totals;
use crate::chance::Chance;
use crate::host::{self, TABLE};
use crate::lookups::same;
use crate::store::{Store, rust_load};
use crate::watch::{Checked, Difference, Watch};
use crate::{home, layout};

pub use fixed::run;

/// The refusal numbers of a store that breaks the layout, and of a buffer that is too
/// short for an image.
const BROKEN: u8 = 2;
const SHORT: u8 = 13;

/// More than the headers and the padding of all tracks that a store holds.
const ALL_BLOCKS: usize = 205 * 512;

/// What is lent of a store, and its image or the refusal number.
struct Home<'a> {
    table: &'a [u8],
    data: &'a [u8],
    expected: Result<Vec<u8>, u8>,
}

/// Writes a store that should hold this disk, as it is lent, and has the Rust read
/// what was written. Answers the refusal number, 0 where it has an image.
pub fn compare(disk: &Disk, store: &Store, chance: &mut Chance, watch: &mut Watch) -> Checked<u8> {
    let home = Home::of(disk, store);
    let image = home.compare(chance, watch)?;
    store.compare("a disk that went home", watch)?;
    match home.expected {
        Err(number) => return Ok(number),
        Ok(expected) => compare_read(disk, &image.part()[..expected.len()], watch)?,
    }
    Ok(0)
}

/// The same for a disk at the end of a session. Where too little of its store is lent,
/// all of it is lent then.
pub fn compare_at_end(
    disk: &Disk,
    store: &mut Store,
    chance: &mut Chance,
    watch: &mut Watch,
) -> Checked {
    if compare(disk, store, chance, watch)? == BROKEN {
        store.data.lend(store.data.length());
        compare(disk, store, chance, watch)?;
    }
    Ok(())
}

/// Writes a store that breaks the layout: 2, whatever else is wrong.
pub fn compare_broken(
    table: &[u8],
    data: &[u8],
    chance: &mut Chance,
    watch: &mut Watch,
) -> Checked {
    let before = (table.to_vec(), data.to_vec());
    let home = Home {
        table,
        data,
        expected: Err(BROKEN),
    };
    home.compare(chance, watch)?;
    watch.compared(table.len() + data.len());
    if (table, data) == (&before.0, &before.1) {
        return Ok(());
    }
    let call = "a broken store that went home";
    Err(Difference::new(call, "the store as it was", "another"))
}

impl Home<'_> {
    /// The store of this disk, as it is lent.
    fn of<'a>(disk: &Disk, store: &'a Store) -> Home<'a> {
        let (table, data) = (store.table.part(), store.data.part());
        let beyond = Totals::of(disk).refusal_in(data.len()).is_some();
        let expected = if table.len() != TABLE || beyond {
            Err(BROKEN)
        } else {
            home::image(disk)
        };
        Home {
            table,
            data,
            expected,
        }
    }

    /// Asks for the length, and writes to buffers that are empty, too short, mostly by
    /// one byte, exact, and longer. Answers the last of them.
    fn compare(&self, chance: &mut Chance, watch: &mut Watch) -> Checked<Buffer> {
        self.compare_length(watch)?;
        let length = self.length(chance);
        let mut image = Buffer::new(length + chance.below(40), chance.below(20), chance);
        let longer = image.lent();
        let (last, any) = (length - 1, chance.below(length));
        for room in [0, chance.of(&[last, last, any]), length] {
            self.write(room, &mut image, watch)?;
        }
        image.renew(chance);
        self.write(longer, &mut image, watch)?;
        Ok(image)
    }

    /// How many bytes the image has. Where there is none, any number, now and then one
    /// that would do for all that is lent.
    fn length(&self, chance: &mut Chance) -> usize {
        match &self.expected {
            Ok(image) => image.len(),
            Err(_) if chance.once_in(60) => self.data.len() + ALL_BLOCKS,
            Err(_) => 1 + chance.below(700),
        }
    }

    /// Asks for the length of the image.
    fn compare_length(&self, watch: &mut Watch) -> Checked {
        let answer = host::image_length(self.table, self.data);
        watch.call("image length");
        let (refusal, expected) = self.answer(usize::MAX);
        watch.refusal("image length", refusal);
        same("the length of an image", expected, answer, watch)
    }

    /// Writes the image to so many bytes of a buffer, and compares every byte of it.
    fn write(&self, room: usize, image: &mut Buffer, watch: &mut Watch) -> Checked {
        image.lend(room);
        let answer = host::write_image(self.table, self.data, image.part_mut());
        watch.call("image written");
        let (refusal, expected) = self.answer(room);
        watch.refusal("image written", refusal);
        let call = format!("an image written to {room} bytes");
        same(&call, expected, answer, watch)?;
        if let (Ok(bytes), 0) = (&self.expected, refusal) {
            image.expect(bytes);
        }
        watch.compared(image.length());
        match image.wrong() {
            None => Ok(()),
            Some((place, expected, byte)) => {
                let call = format!("{call}: byte {place:#x}");
                Err(Difference::new(call, expected, byte))
            }
        }
    }

    /// The refusal number with a buffer of this length, and the word.
    fn answer(&self, room: usize) -> (u8, u64) {
        match &self.expected {
            Err(number) => (*number, host::refused(*number)),
            Ok(image) if room < image.len() => (SHORT, host::refused(SHORT)),
            Ok(image) => (0, (image.len() as u64) << 32),
        }
    }
}

/// Has the Rust read what was written: its disk is equal in every field and byte.
fn compare_read(disk: &Disk, image: &[u8], watch: &mut Watch) -> Checked {
    watch.count("images written and read by the Rust");
    watch.compared(image.len());
    let read = match rust_load(image)? {
        Ok(read) if layout::laid(&read) == layout::laid(disk) => return Ok(()),
        Ok(_) => "another disk".to_owned(),
        Err(number) => format!("refusal {number}"),
    };
    let call = "an image that was written, read by the Rust";
    Err(Difference::new(call, "an equal disk", read))
}
