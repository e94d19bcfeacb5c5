//! Every n from 0 to 255, which come before the cases of a run: a normal image with
//! sectors of it is loaded; then the track that is there and one that is not are
//! formatted with it, and a sector of each is written and read, on both machines.

use crate::buffer::Buffer;
use crate::by_hand::sent;
use crate::capacities::Totals;
use crate::chance::Chance;
use crate::datasheet::Machine;
use crate::dsk::{FIRST, Plan, Sector, Track};
use crate::pair::{Kept, Pair};
use crate::store::{Store, rust_load};
use crate::watch::{Checked, Difference, Watch, told};

/// More than four sectors of any n have.
const ROOM: usize = 5_000;

/// Runs them all, to the first difference. Answers whether there was none.
pub fn run(watch: &mut Watch) -> bool {
    (0..=255).all(|n| {
        watch.count("sizes by n");
        let mut machines = Machine::ALL.into_iter();
        let done = machines.try_for_each(|machine| compare(machine, n, watch));
        told(format_args!("size by   n {n}"), done)
    })
}

fn compare(machine: Machine, n: u8, watch: &mut Watch) -> Checked {
    let mut chance = Chance::new(n.into());
    let disk = loaded(n, &mut chance, watch)?;
    let transfer = Buffer::new(ROOM, 9, &mut chance);
    let mut pair = Pair::new(machine, vec![disk], transfer, &mut chance, watch)?;
    let done = pair
        .put(Some(0), 1)
        .and_then(|()| play(0, n, &mut pair))
        .and_then(|()| play(1, n, &mut pair))
        .and_then(|()| pair.finish(&mut chance));
    done.map_err(|difference| difference.with(pair.states()))
}

/// A normal image with three sectors of this n, loaded on both sides into as much room
/// as they take. All of the room for what follows is lent then.
fn loaded(n: u8, chance: &mut Chance, watch: &mut Watch) -> Checked<Kept> {
    let sectors = [1, 2, 3].map(|r| Sector::sized([0, 0, r, n])).to_vec();
    let plan = Plan::normal(1, 1, 0xd00).track(FIRST, Track::new(0, 0, sectors));
    let image = plan.image();
    let rust = rust_load(&image)?;
    let mut store = Store::new(ROOM, 9, chance);
    let bytes = rust.as_ref().map_or(0, |disk| Totals::of(disk).bytes);
    store.data.lend(bytes);
    let (0, Ok(disk)) = (store.load(&image, &rust, watch)?, rust) else {
        return Err(Difference::new("load", "a disk", "a refusal"));
    };
    store.data.lend(ROOM);
    Ok(Kept {
        rust: Some(disk),
        store,
    })
}

/// Formats two sectors of this n on the cylinder, with their IDs where they are taken,
/// writes the first, and reads both.
fn play(cylinder: u8, n: u8, pair: &mut Pair) -> Checked {
    sent(pair, &[0x0f, 0, cylinder])?;
    sent(pair, &[0x4d, 0, n, 2, 0x2a, 0xe5])?;
    if pair.rust().format().is_some() {
        sent(pair, &[cylinder, 0, 1, n, cylinder, 0, 2, n])?;
    }
    sent(pair, &[0x45, 0, cylinder, 0, 1, n, 1, 0x2a, 0xff])?;
    let write = pair.rust().boxes().write;
    let left = write.map_or(0, |(_, _, left, _)| left);
    let data: Vec<u8> = (0..left).map(|place| place as u8 ^ n).collect();
    sent(pair, &data)?;
    sent(pair, &[0x46, 0, cylinder, 0, 1, n, 2, 0x2a, 0xff])
}
