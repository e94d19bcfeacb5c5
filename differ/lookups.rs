//! Compares what the two sides find on a loaded disk.

use std::ptr;

use raze::disk::{Disk, Sector};
use raze::floppy::SectorId;

use crate::chance::Chance;
use crate::found::Match;
use crate::host::{self, Address};
use crate::store::Store;
use crate::watch::{Checked, Difference, Watch};
use crate::{homes, rules};

/// How many addresses of a disk are asked for, and as many beside them.
const ADDRESSES: usize = 8;

/// Compares geometry and lookups of a disk that both sides hold.
pub fn compare(disk: &Disk, store: &Store, chance: &mut Chance, watch: &mut Watch) -> Checked {
    let (table, data) = (store.table.part(), store.data.part());
    let (first, others) = disk.geometry();
    let expected = u64::from(first) | u64::from(others) << 16;
    watch.call("geometry");
    same("geometry", expected, host::geometry(table, data), watch)?;
    for _ in 0..ADDRESSES {
        let address = present(disk, chance);
        compare_at(disk, store, address, watch)?;
        compare_at(disk, store, beside(address, chance), watch)?;
    }
    compare_at(disk, store, [0; 6].map(|_: u8| chance.byte()), watch)?;
    store.compare("lookups", watch)
}

/// Asks a store that breaks the layout: 2, no sector, and no image.
pub fn compare_broken(
    table: &[u8],
    data: &[u8],
    chance: &mut Chance,
    watch: &mut Watch,
) -> Checked {
    let address = [chance.small(2), chance.small(3), 0, 0, 1, 2];
    let refused = host::refused(2);
    watch.call("geometry");
    watch.refusal("call", 2);
    same(
        "geometry, broken",
        refused,
        host::geometry(table, data),
        watch,
    )?;
    watch.call("has_sector");
    watch.refusal("call", 2);
    let has = host::has_sector(table, data, address);
    same("has_sector, broken", refused, has, watch)?;
    watch.call("sector");
    same(
        "sector, broken",
        0,
        host::sector(table, data, address),
        watch,
    )?;
    homes::compare_broken(table, data, chance, watch)
}

/// Compares a word.
pub fn same(call: impl std::fmt::Display, expected: u64, answer: u64, watch: &Watch) -> Checked {
    watch.say(format_args!(
        "{call}: expected {expected:#x}, library {answer:#x}"
    ));
    if expected == answer {
        return Ok(());
    }
    let (expected, answer) = (format!("{expected:#x}"), format!("{answer:#x}"));
    Err(Difference::new(call, expected, answer))
}

/// The address of some sector of the disk, or one that may be there.
fn present(disk: &Disk, chance: &mut Chance) -> Address {
    let tracks = disk.tracks();
    if tracks.is_empty() {
        return [0, 0, 0, 0, 1, 2];
    }
    let track = &tracks[chance.below(tracks.len())];
    let (side, cylinder, sectors) = (track.side(), track.cylinder(), track.sectors());
    if sectors.is_empty() {
        return [side, cylinder, cylinder, side, 1, 2];
    }
    let id = &sectors[chance.below(sectors.len())].id;
    [side, cylinder, id.c, id.h, id.r, id.n]
}

/// An address that differs in one byte.
fn beside(mut address: Address, chance: &mut Chance) -> Address {
    let byte = &mut address[chance.below(6)];
    *byte = match chance.below(3) {
        0 => byte.wrapping_add(1),
        1 => *byte ^ 1,
        _ => chance.byte(),
    };
    address
}

/// Compares what is found at an address: yes or no, the place and the length of the
/// bytes, and which sector of its track it is.
pub fn compare_at(disk: &Disk, store: &Store, address: Address, watch: &mut Watch) -> Checked {
    let [side, cylinder, c, h, r, n] = address;
    let id = SectorId { c, h, r, n };
    let sector = rules::find(disk, side, cylinder, &id);
    let found = Match::find(disk, side, cylinder, &id);
    watch.found(["sector looked up", "equal IDs looked up"], found);
    let (table, data) = (store.table.part(), store.data.part());
    watch.call("has_sector");
    let answer = host::has_sector(table, data, address);
    let expected = u64::from(sector.is_some()) | Match::word(found);
    same(
        format_args!("has_sector {address:?}"),
        expected,
        answer,
        watch,
    )?;
    watch.call("sector");
    let answer = host::sector(table, data, address);
    let bytes = sector.map_or(0, |sector| {
        place(disk, sector) << 32 | sector.data.len() as u64
    });
    let expected = bytes | Match::word(found);
    same(format_args!("sector {address:?}"), expected, answer, watch)
}

/// Where the bytes of a sector of the disk stand: behind those of all before it.
/// That they are there, the comparison of the data buffer says.
fn place(disk: &Disk, wanted: &Sector) -> u64 {
    let sectors = disk.tracks().iter().flat_map(|track| track.sectors());
    let before = sectors.take_while(|sector| !ptr::eq(*sector, wanted));
    before.map(|sector| sector.data.len() as u64).sum()
}
