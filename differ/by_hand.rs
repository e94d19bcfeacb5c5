//! What comes before the cases of a run, with answers that are told by hand as well: disks
//! that are made by hand, in a new controller, and steps that must go as they are told.

use std::fmt;

use crate::buffer::Buffer;
use crate::capacities::{MOST_TRANSFER, Totals};
use crate::chance::Chance;
use crate::datasheet::Machine;
use crate::dsk::{Plan, Track};
use crate::pair::{Kept, Pair};
use crate::store::{Store, rust_load};
use crate::watch::{Checked, Difference, Watch};

/// How many bytes a store has to spare: more than a format of 255 sectors takes.
const SPARE: usize = 33_000;

/// Plays with these disks in a new controller, the first of them in the drive.
pub fn with(
    machine: Machine,
    disks: &[&[Track]],
    watch: &mut Watch,
    play: impl FnOnce(&mut Pair) -> Checked,
) -> Checked {
    watch.count("runs by hand");
    let mut chance = Chance::new(0);
    let disks = disks
        .iter()
        .map(|tracks| loaded(tracks, &mut chance, watch));
    let disks = disks.collect::<Checked<Vec<Kept>>>()?;
    let transfer = Buffer::new(MOST_TRANSFER, 9, &mut chance);
    let mut pair = Pair::new(machine, disks, transfer, &mut chance, watch)?;
    let done = pair.put(Some(0), 1).and_then(|()| play(&mut pair));
    let done = done.and_then(|()| pair.finish(&mut chance));
    done.map_err(|difference| difference.with(pair.states()))
}

/// The disk of these tracks, loaded on both sides.
fn loaded(tracks: &[Track], chance: &mut Chance, watch: &mut Watch) -> Checked<Kept> {
    let image = Plan::packed(tracks).image();
    let rust = rust_load(&image)?;
    let bytes = rust.as_ref().map_or(0, |disk| Totals::of(disk).bytes);
    let mut store = Store::new(bytes + SPARE, 9, chance);
    let (0, Ok(disk)) = (store.load(&image, &rust, watch)?, rust) else {
        return Err(Difference::new("load", "a disk", "a refusal"));
    };
    Ok(Kept {
        rust: Some(disk),
        store,
    })
}

/// Sends bytes that are taken.
pub fn sent(pair: &mut Pair, bytes: &[u8]) -> Checked {
    bytes.iter().try_for_each(|&b| pair.taken(b))
}

/// Sends a byte that is refused with this number.
pub fn refused(pair: &mut Pair, b: u8, number: u8) -> Checked {
    let refusal = pair.send(b)?;
    same(format_args!("send {b:02x}, by hand"), number, refusal)
}

/// Compares what is told by hand with what was seen.
pub fn same<T: PartialEq + fmt::Debug>(call: impl fmt::Display, told: T, seen: T) -> Checked {
    if told == seen {
        return Ok(());
    }
    let (told, seen) = (format!("{told:02x?}"), format!("{seen:02x?}"));
    Err(Difference::new(call, told, seen))
}
