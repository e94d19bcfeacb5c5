//! Prints what document 01's listing program, with the copies of request 2026-02, has
//! to print for an image, from the disk that the Rust loads.

use std::io::{self, Cursor, Write};

use raze::disk::{Disk, Sector, Track};

use crate::capacities::Totals;
use crate::{Failure, errors};

/// The listing program refuses a longer input.
const LARGEST: usize = 65_536;

/// The refusal number of an input that is too long.
const LONG_INPUT: u8 = 10;

/// The refusal number of a store without room, which a listing does not need.
const NO_ROOM: u8 = 8;

/// Prints the listing of the image, or the refusal.
pub fn print(image: &[u8], out: &mut impl Write) -> Result<(), Failure> {
    if image.len() > LARGEST {
        return Ok(writeln!(out, "refused {LONG_INPUT}")?);
    }
    match Disk::new(Cursor::new(image)) {
        Ok(disk) => print_disk(image, &disk, out)?,
        Err(error) => match errors::refusal(&error) {
            Some(number) => writeln!(out, "refused {number}")?,
            None => return Err(Failure::Finding(error.to_string())),
        },
    }
    Ok(())
}

fn print_disk(image: &[u8], disk: &Disk, out: &mut impl Write) -> io::Result<()> {
    let totals = Totals::of(disk);
    if let Some(number) = totals.refusal().filter(|&number| number != NO_ROOM) {
        return writeln!(out, "refused {number}");
    }
    let kind = if image.starts_with(b"EXTENDED CPC") {
        "extended"
    } else {
        "normal"
    };
    let Totals {
        tracks,
        sectors,
        bytes,
    } = totals;
    writeln!(
        out,
        "disk {kind} tracks {tracks} sectors {sectors} bytes {bytes}"
    )?;
    let mut tracks = disk.tracks().iter();
    tracks.try_for_each(|track| print_track(track, out))
}

fn print_track(track: &Track, out: &mut impl Write) -> io::Result<()> {
    writeln!(
        out,
        "track {} {} sectors {} gap {} filler {}",
        track.cylinder(),
        track.side(),
        track.sectors().len(),
        track.gap3(),
        track.filler()
    )?;
    let mut sectors = track.sectors().iter();
    sectors.try_for_each(|sector| print_sector(sector, out))
}

fn print_sector(sector: &Sector, out: &mut impl Write) -> io::Result<()> {
    let id = &sector.id;
    writeln!(
        out,
        "sector {} {} {} {} {} {} {} {}",
        id.c,
        id.h,
        id.r,
        id.n,
        sector.st1.bits(),
        sector.st2.bits(),
        sector.data.len(),
        copies(sector)
    )
}

/// The last column, which the Rust does not have: 01's rule for n 0 to 3, request
/// 2026-02's for all others.
fn copies(sector: &Sector) -> usize {
    let stored = sector.data.len();
    let size = sector.id.len();
    match sector.id.n {
        0..=3 if stored % size == 0 => stored / size,
        0..=3 => 0,
        _ if stored == 0 => 0,
        _ => 1,
    }
}
