//! A case of loads: an image is loaded by both sides, and the disks are compared.

use raze::disk::Disk;

use crate::capacities::Totals;
use crate::chance::Chance;
use crate::host::TABLE;
use crate::store::{Store, rust_load};
use crate::watch::{Checked, Watch};
use crate::{faults, homes, layout, lookups, made};

/// How many bytes the fresh disk stores.
const FRESH: usize = 40 * 9 * 512;

/// Runs the case of this seed.
pub fn run(seed: u64, kind: u8, watch: &mut Watch) -> Checked {
    let mut chance = Chance::new(seed);
    match kind {
        0 if chance.once_in(3) => {
            let images = made::cuts(&mut chance);
            let mut images = images.iter();
            images.try_for_each(|image| load(image, &mut chance, watch))
        }
        1 | 2 => fresh(&mut chance, watch),
        3 => load(&made::heavy(&mut chance), &mut chance, watch),
        _ => load(&made::any(&mut chance), &mut chance, watch),
    }
}

/// Loads the image on both sides and compares.
pub fn load(image: &[u8], chance: &mut Chance, watch: &mut Watch) -> Checked {
    let rust = rust_load(image)?;
    let total = rust.as_ref().map_or(0, |disk| Totals::of(disk).bytes);
    let mut store = Store::new(room(total, chance), chance.below(40), chance);
    if chance.once_in(40) {
        let length = chance.of(&[0, 1, TABLE - 1, TABLE + 1, TABLE + 8]);
        store.table.lend(length);
    }
    let refusal = store.load(image, &rust, watch)?;
    watch.count("images");
    watch.refusal("image", refusal);
    match &rust {
        Ok(disk) if refusal == 0 => {
            watch.count("images loaded");
            compare_disk(disk, &mut store, chance, watch)
        }
        Ok(disk) => compare_overfull(disk, chance, watch),
        Err(_) => Ok(()),
    }
}

/// A disk beyond the capacities, laid in a store by hand: it breaks the layout.
fn compare_overfull(disk: &Disk, chance: &mut Chance, watch: &mut Watch) -> Checked {
    let (mut table, data) = layout::laid(disk);
    let totals = Totals::of(disk);
    if totals.refusal().is_none() || totals.tracks > 255 || table.len() > TABLE {
        return Ok(());
    }
    table.resize(TABLE, 0);
    lookups::compare_broken(&table, &data, chance, watch)
}

/// A fresh disk, with data rooms around what it stores.
fn fresh(chance: &mut Chance, watch: &mut Watch) -> Checked {
    let mut store = Store::new(room(FRESH, chance), chance.below(40), chance);
    if chance.once_in(10) {
        store.table.lend(chance.of(&[0, TABLE - 1, TABLE + 1]));
    }
    let refusal = store.fresh(watch)?;
    watch.count("fresh disks");
    watch.refusal("fresh disk", refusal);
    if refusal == 0 {
        compare_disk(&Disk::new_formatted(), &mut store, chance, watch)?;
    }
    Ok(())
}

/// Compares lookups and the disk's image, and now and then those of the same store
/// broken.
fn compare_disk(disk: &Disk, store: &mut Store, chance: &mut Chance, watch: &mut Watch) -> Checked {
    lookups::compare(disk, store, chance, watch)?;
    homes::compare(disk, store, chance, watch)?;
    if chance.once_in(4) {
        let table = faults::broken_table(store.table.part(), store.data.lent(), chance);
        lookups::compare_broken(&table, store.data.part(), chance, watch)?;
    }
    let total = Totals::of(disk).bytes;
    if total > 0 && chance.once_in(4) {
        let any = chance.below(total);
        store.data.lend(chance.of(&[any, total - 1]));
        lookups::compare_broken(store.table.part(), store.data.part(), chance, watch)?;
    }
    Ok(())
}

/// A data room for so many bytes: mostly enough.
fn room(total: usize, chance: &mut Chance) -> usize {
    match chance.below(16) {
        0 => total.saturating_sub(1),
        1 => total,
        2 => total + 1,
        3 => 0,
        4 => chance.below(total + 1),
        _ => total + chance.below(300),
    }
}
