//! Prints what the Rust does with a disk that a script changes and reads.

mod controller;

use std::io::{self, Write};

use raze::disk::{Disk, Sector, Track};
use raze::floppy::SectorId;

use crate::capacities::{Totals, transfer_refusal};
use crate::script::{Id, Operation, Place, Script};
use crate::{Failure, dump, load};

/// A disk with more sectors is not printed whole.
const MOST_PRINTED: usize = 600;

/// Prints what each operation of the script comes to.
pub fn print(script: &Script, out: &mut impl Write) -> Result<(), Failure> {
    let mut disk = load::disk(script.name(), script.image())?;
    writeln!(out, "script {}", script.name())?;
    for operation in script.operations() {
        write!(out, "{operation} ")?;
        disk = run(operation, disk, out)?;
    }
    Ok(())
}

/// Runs one operation, prints what it comes to, and hands back the disk.
fn run(operation: &Operation, mut disk: Disk, out: &mut impl Write) -> io::Result<Disk> {
    match *operation {
        Operation::Format {
            place: [side, cylinder],
            n,
            count,
            gap,
            filler,
        } => {
            let track = Track::new_formatted(cylinder, side, n, count, gap, filler);
            format(&mut disk, track, out)?;
        }
        Operation::Save {
            place,
            id,
            length,
            seed,
        } => save(&mut disk, place, id, pattern(length, seed), out)?,
        Operation::Read {
            place,
            id,
            eot,
            room,
        } => {
            let reading;
            (reading, disk) = controller::read(disk, place, id, eot);
            print_reading(&reading, room, out)?;
        }
        Operation::Id { place, index } => print_id(&disk, place, index, out)?,
    }
    Ok(disk)
}

fn format(disk: &mut Disk, track: Track, out: &mut impl Write) -> io::Result<()> {
    if let Some(number) = Totals::with(disk, &track).refusal() {
        return writeln!(out, "refused {number}");
    }
    disk.set_track(track.side(), track.cylinder(), track);
    print_done(disk, out)
}

fn save(
    disk: &mut Disk,
    [side, cylinder]: Place,
    [c, h, r, n]: Id,
    data: Vec<u8>,
    out: &mut impl Write,
) -> io::Result<()> {
    let mut totals = Totals::of(disk);
    let id = SectorId { c, h, r, n };
    let track = disk.get_track_mut(side, cylinder);
    let Some(sector) = track.and_then(|track| track.get_sector_mut(&id)) else {
        return writeln!(out, "missing");
    };
    totals.bytes = totals.bytes - sector.data.len() + data.len();
    if let Some(number) = totals.refusal() {
        return writeln!(out, "refused {number}");
    }
    sector.data = data;
    print_done(disk, out)
}

/// The bytes that a save stores.
fn pattern(length: u16, seed: u8) -> Vec<u8> {
    let byte = |place: usize| (usize::from(seed) + 31 * place + place / 256) as u8;
    (0..length.into()).map(byte).collect()
}

fn print_done(disk: &Disk, out: &mut impl Write) -> io::Result<()> {
    writeln!(out, "done")?;
    let totals = Totals::of(disk);
    if totals.sectors > MOST_PRINTED {
        return writeln!(out, "{totals}");
    }
    dump::print(disk, out)
}

fn print_reading(reading: &controller::Reading, room: u32, out: &mut impl Write) -> io::Result<()> {
    if reading.is_missing() {
        return writeln!(out, "missing");
    }
    let total = reading.data.len();
    if let Some(number) = transfer_refusal(total, room) {
        return writeln!(out, "refused {number}");
    }
    let [_, st1, st2, ..] = reading.reply;
    writeln!(out, "{total} {st1} {st2} {}", dump::check(&reading.data))
}

fn print_id(
    disk: &Disk,
    [side, cylinder]: Place,
    index: u16,
    out: &mut impl Write,
) -> io::Result<()> {
    let track = disk.get_track(side, cylinder);
    match track.and_then(|track| track.get_sector_by_idx(index.into())) {
        Some(Sector { id, .. }) => writeln!(out, "{} {} {} {}", id.c, id.h, id.r, id.n),
        None => writeln!(out, "none"),
    }
}
