//! Prints what the Rust answers on an image.

mod lookups;

use std::io::{self, Cursor, Write};

use raze::disk::Disk;

use crate::capacities::Totals;
use crate::stream::Record;
use crate::{Failure, dump, errors, home};

/// Loads the image of the record with the Rust and prints its answer.
pub fn print(record: &Record, out: &mut impl Write) -> Result<(), Failure> {
    writeln!(out, "image {}", record.name())?;
    match Disk::new(Cursor::new(record.image())) {
        Ok(disk) => print_disk(&disk, out)?,
        Err(error) => match errors::refusal(&error) {
            Some(number) => writeln!(out, "refused {number}")?,
            None => return Err(Failure::Finding(format!("{}: {error}", record.name()))),
        },
    }
    Ok(())
}

/// Prints the disk that the Rust formats fresh.
pub fn print_fresh(out: &mut impl Write) -> io::Result<()> {
    writeln!(out, "fresh")?;
    print_tracks(&Disk::new_formatted(), out)
}

fn print_disk(disk: &Disk, out: &mut impl Write) -> io::Result<()> {
    let totals = Totals::of(disk);
    writeln!(out, "{totals}")?;
    if let Some(number) = totals.refusal() {
        return writeln!(out, "refused {number}");
    }
    print_tracks(disk, out)
}

fn print_tracks(disk: &Disk, out: &mut impl Write) -> io::Result<()> {
    dump::print(disk, out)?;
    lookups::print(disk, out)?;
    print_home(disk, out)
}

/// Prints the length and check of the image that the disk goes home as, or why it has
/// none.
fn print_home(disk: &Disk, out: &mut impl Write) -> io::Result<()> {
    match home::image(disk) {
        Ok(image) => writeln!(out, "home {} {}", image.len(), dump::check(&image)),
        Err(number) => writeln!(out, "home refused {number}"),
    }
}
