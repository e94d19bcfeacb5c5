//! The disks at the edges of what an extended image holds, which come before the cases
//! of a run.

use super::compare;
use crate::capacities::Totals;
use crate::chance::Chance;
use crate::dsk::Plan;
use crate::home_edges::{Edge, Written};
use crate::store::{Store, rust_load};
use crate::watch::{Checked, Difference, Watch, told};
use crate::{home, home_edges};

/// Runs them all, to the first difference. Answers whether there was none.
pub fn run(watch: &mut Watch) -> bool {
    home_edges::all().into_iter().all(|edge| {
        let done = compare_edge(&edge, watch);
        told(format_args!("written   {}", edge.0), done)
    })
}

/// Loads the disk on both sides and writes it; then with a data buffer that is one
/// byte short, which is 2 whatever the disk is.
fn compare_edge((name, tracks, written): &Edge, watch: &mut Watch) -> Checked {
    watch.count("disks at the edges");
    let mut chance = Chance::new(0);
    let image = Plan::packed(tracks).image();
    let rust = rust_load(&image)?;
    let bytes = rust.as_ref().map_or(0, |disk| Totals::of(disk).bytes);
    let mut store = Store::new(bytes, 9, &mut chance);
    let (0, Ok(disk)) = (store.load(&image, &rust, watch)?, &rust) else {
        return Err(Difference::new(name, "a disk that loads", "another"));
    };
    compare(disk, &store, &mut chance, watch)?;
    let image = home::image(disk);
    compare_told(name, *written, &image)?;
    if let Ok(image) = image {
        Store::new(bytes, 9, &mut chance).load(&image, &rust, watch)?;
    }
    if bytes > 0 {
        store.data.lend(bytes - 1);
        compare(disk, &store, &mut chance, watch)?;
    }
    Ok(())
}

/// Compares an image, which the library writes as well, with what is told by hand.
fn compare_told(name: &str, told: Written, image: &Result<Vec<u8>, u8>) -> Checked {
    let image = image.as_ref().ok();
    let seen = image.map(|image| (image.len(), image[0x30], image[0x31]));
    if seen == told {
        return Ok(());
    }
    let (told, seen) = (format!("{told:?}"), format!("{seen:?}"));
    Err(Difference::new(name, told, seen))
}
