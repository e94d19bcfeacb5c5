//! Prints what a disk holds.

use std::io::{self, Write};

use raze::disk::{Disk, Sector, Track};

/// Prints the tracks of the disk, each with its sectors under it.
pub fn print(disk: &Disk, out: &mut impl Write) -> io::Result<()> {
    let mut tracks = disk.tracks().iter();
    tracks.try_for_each(|track| print_track(track, out))
}

fn print_track(track: &Track, out: &mut impl Write) -> io::Result<()> {
    writeln!(
        out,
        "track {} {} {} {} {} {}",
        track.cylinder(),
        track.side(),
        track.sector_size(),
        track.gap3(),
        track.filler(),
        track.sectors().len()
    )?;
    let mut sectors = track.sectors().iter();
    sectors.try_for_each(|sector| print_sector(sector, out))
}

fn print_sector(sector: &Sector, out: &mut impl Write) -> io::Result<()> {
    let id = &sector.id;
    writeln!(
        out,
        "sector {} {} {} {} {} {} {} {}",
        id.c,
        id.h,
        id.r,
        id.n,
        sector.st1.bits(),
        sector.st2.bits(),
        sector.data.len(),
        check(&sector.data)
    )
}

/// The check number of bytes, which depends on each byte and its place.
pub fn check(bytes: &[u8]) -> u64 {
    bytes.iter().fold(0, |sum, &byte| {
        (sum * 16_777_619 + u64::from(byte)) % 4_294_967_291
    })
}
