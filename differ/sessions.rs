//! A case of sessions: calls by chance on both controllers, with several disks.

mod commands;
mod ids;
mod pauses;
mod rooms;
mod turns;

use std::ops::RangeInclusive;

use raze::disk::Disk;

use crate::buffer::Buffer;
use crate::capacities::Totals;
use crate::chance::Chance;
use crate::datasheet::Machine;
use crate::made;
use crate::pair::{Kept, Pair};
use crate::store::{Store, rust_load};
use crate::watch::{Checked, Watch};

/// The kinds of sessions: one that lets the Read ID index wrap, one with reads as
/// long as the transfer room, with a disk nearly full of bytes, with disks nearly
/// full of tracks or sectors, with any bytes, and that begin with a sheet made by
/// chance. The others are traffic.
const WRAP: u8 = 0;
const LONG: u8 = 1;
const HEAVY: u8 = 2;
const FULL: RangeInclusive<u8> = 3..=7;
const NOISE: RangeInclusive<u8> = 8..=39;
const SHEET: RangeInclusive<u8> = 40..=63;

/// Runs the case of this seed, a third of them on the data-sheet machine.
pub fn run(seed: u64, kind: u8, watch: &mut Watch) -> Checked {
    let mut chance = Chance::new(seed);
    let machine = chance.of(&[Machine::Rust, Machine::Rust, Machine::DataSheet]);
    watch.count("sessions");
    if machine == Machine::DataSheet {
        watch.count("sessions of the data-sheet machine");
    }
    let disks = disks(kind, &mut chance, watch)?;
    let length = match kind {
        LONG => 70_000,
        _ => rooms::transfer(&mut chance),
    };
    let transfer = Buffer::new(length, chance.below(40), &mut chance);
    let mut pair = Pair::new(machine, disks, transfer, &mut chance, watch)?;
    let done = play(&mut pair, kind, &mut chance);
    let done = done.and_then(|()| pair.finish(&mut chance));
    done.map_err(|difference| difference.with(pair.states()))
}

/// The calls of the session.
fn play(pair: &mut Pair, kind: u8, chance: &mut Chance) -> Checked {
    match kind {
        WRAP => begin_with_ids(pair, chance)?,
        LONG => begin_with_long_reads(pair, chance)?,
        _ if chance.once_in(8) => {}
        _ => pair.put(Some(0), chance.byte())?,
    }
    if SHEET.contains(&kind) {
        pauses::take_up(pair, chance)?;
    }
    let turn = match kind {
        _ if FULL.contains(&kind) => turns::formats,
        _ if NOISE.contains(&kind) => turns::noise,
        _ if SHEET.contains(&kind) => pauses::turn,
        _ => turns::traffic,
    };
    for _ in 0..20 + chance.below(180) {
        turn(pair, chance)?;
    }
    Ok(())
}

/// So many Read IDs that the index wraps.
fn begin_with_ids(pair: &mut Pair, chance: &mut Chance) -> Checked {
    pair.put(Some(0), 1)?;
    for _ in 0..65_540 {
        commands::send_all(pair, &[0x4a, 0], chance)?;
    }
    Ok(())
}

/// The longest sheet; then a Read Data of exactly the largest transfer room, and one of
/// a sector more.
fn begin_with_long_reads(pair: &mut Pair, chance: &mut Chance) -> Checked {
    pauses::longest(pair, chance)?;
    pair.put(Some(0), 1)?;
    commands::send_all(pair, &[0, 0], chance)?;
    commands::send_all(pair, &[0x4d, 0, 3, 66, 0x2a, chance.byte()], chance)?;
    ids::usual(pair, chance)?;
    for eot in [64, 65] {
        commands::send_all(pair, &[0x46, 0, 0, 0, 1, 3, eot, 0x2a, 0xff], chance)?;
    }
    Ok(())
}

/// Two or three disks.
fn disks(kind: u8, chance: &mut Chance, watch: &mut Watch) -> Checked<Vec<Kept>> {
    let number = 2 + chance.below(2);
    (0..number)
        .map(|number| {
            let image = match kind {
                HEAVY if number == 0 => Some(made::heavy(chance)),
                _ if number == 0 && FULL.contains(&kind) => Some(made::nearly_full(chance)),
                _ if chance.once_in(12) => None,
                _ if chance.once_in(30) => Some(made::usual(chance.once_in(2))),
                _ if chance.once_in(12) => Some(made::long_list(chance)),
                _ if chance.once_in(3) => Some(made::few_ids(chance)),
                _ => Some(made::small(chance)),
            };
            let spare = match kind {
                LONG => 100_000,
                _ => rooms::spare(chance),
            };
            kept(image, spare, chance, watch)
        })
        .collect()
}

/// The disk of the image, or a fresh one, in a store with a little room to spare.
fn kept(
    image: Option<Vec<u8>>,
    spare: usize,
    chance: &mut Chance,
    watch: &mut Watch,
) -> Checked<Kept> {
    let rust = match &image {
        None => Ok(Disk::new_formatted()),
        Some(image) => rust_load(image)?,
    };
    let total = rust.as_ref().map_or(0, |disk| Totals::of(disk).bytes);
    let mut store = Store::new(total + spare, chance.below(20), chance);
    let refusal = match &image {
        None => store.fresh(watch)?,
        Some(image) => store.load(image, &rust, watch)?,
    };
    match rust {
        Ok(disk) if refusal == 0 => Ok(Kept {
            rust: Some(disk),
            store,
        }),
        _ => kept(None, spare, chance, watch),
    }
}
