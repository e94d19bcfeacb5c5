//! Prints what the Rust finds on a loaded disk.

use std::io::{self, Write};

use raze::disk::{Disk, Sector, Track};
use raze::floppy::SectorId;

use crate::dump;
use crate::found::Match;

/// Where a sector is looked for: side, cylinder, C, H, R and N.
type Address = [u8; 6];

/// The addresses that every disk is asked for, behind its own.
const FIXED: [Address; 3] = [[0, 0, 0, 0, 0, 0], [1, 0, 0, 0, 1, 2], [255; 6]];

/// Prints the geometry of the disk, and what is found at each address.
pub fn print(disk: &Disk, out: &mut impl Write) -> io::Result<()> {
    let (first, others) = disk.geometry();
    writeln!(out, "geometry {first} {others}")?;
    let mut addresses = disk.tracks().iter().flat_map(addresses).chain(FIXED);
    addresses.try_for_each(|address| print_found(disk, address, out))
}

/// The address of each sector of the track, and one beside the first of them.
fn addresses(track: &Track) -> impl Iterator<Item = Address> {
    let own = |Sector { id, .. }: &Sector| [track.side(), track.cylinder(), id.c, id.h, id.r, id.n];
    let beside = |[side, cylinder, c, h, r, n]: Address| [side, cylinder, c, h, r ^ 0x80, n];
    let sectors = track.sectors();
    let last = sectors.first().map(own).map(beside);
    sectors.iter().map(own).chain(last)
}

fn print_found(disk: &Disk, address: Address, out: &mut impl Write) -> io::Result<()> {
    let [side, cylinder, c, h, r, n] = address;
    let id = SectorId { c, h, r, n };
    let track = disk.get_track(side, cylinder);
    write!(out, "at {side} {cylinder} {c} {h} {r} {n} ")?;
    let sector = track.and_then(|track| track.get_sector(&id));
    match (sector, Match::find(disk, side, cylinder, &id)) {
        (Some(Sector { data, .. }), Some(Match { place, count })) => {
            let (length, check) = (data.len(), dump::check(data));
            writeln!(out, "{place} {count} {length} {check}")
        }
        _ => writeln!(out, "none"),
    }
}
