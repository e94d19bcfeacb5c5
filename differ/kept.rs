//! The kept lists of images and of sessions (docs/ORACLE.md), run on both sides.

use std::fs;

use raze::disk::Disk;

use crate::buffer::Buffer;
use crate::capacities::{MOST_BYTES, MOST_TRANSFER};
use crate::chance::Chance;
use crate::datasheet::Machine;
use crate::pair::{Kept, Pair};
use crate::session::{self, Call, Session, Slot};
use crate::store::{Store, rust_load};
use crate::stream::{self, Record};
use crate::watch::{Checked, Difference, Watch, told};
use crate::{cases, loads};

/// The one image for which the Rust takes about 3 GB, which is left out.
const LARGE: &str = "many-sectors-16581375";

/// The number of the transfer buffer.
const TRANSFER: u16 = 3;

/// How often each image is loaded, with rooms by chance.
const LOADS: u64 = 4;

/// Runs the lists that stand in the folder of the crates; where a name is told, the
/// one of that name alone, and tells each call. Answers whether there was no
/// difference, and nothing where a list cannot be read.
pub fn run(folder: &str, name: Option<&str>) -> Option<bool> {
    let read = |crate_name: &str| fs::read(format!("{folder}/{crate_name}/stdin")).ok();
    let records = stream::read(&read("vectors")?).ok()?;
    let sessions = session::read(&read("ports")?).ok()?;
    let mut watch = name.map_or(Watch::default(), |_| Watch::aloud());
    let chosen = |other: &str| name.is_none_or(|name| name == other);
    let mut good = true;
    for record in &records {
        if chosen(record.name()) && record.name() != LARGE {
            let done = run_image(record, &mut watch);
            good &= told(format_args!("kept      {}", record.name()), done);
        }
    }
    for session in sessions.iter().filter(|session| !session.is_refusal()) {
        if chosen(session.name()) {
            let done = run_session(session, &mut watch);
            good &= told(format_args!("kept      {}", session.name()), done);
        }
    }
    cases::tell_end(good, &watch);
    Some(good)
}

fn run_image(record: &Record, watch: &mut Watch) -> Checked {
    (0..LOADS).try_for_each(|seed| loads::load(record.image(), &mut Chance::new(seed), watch))
}

fn run_session(session: &Session, watch: &mut Watch) -> Checked {
    watch.count("sessions");
    let mut chance = Chance::new(0);
    let [a, b] = session.images();
    let disks = vec![kept(a, &mut chance, watch)?, kept(b, &mut chance, watch)?];
    let transfer = Buffer::new(MOST_TRANSFER, 9, &mut chance);
    let mut pair = Pair::new(Machine::Rust, disks, transfer, &mut chance, watch)?;
    let mut calls = session.calls().iter();
    let done = calls.try_for_each(|call| run_call(call, &mut pair, &mut chance));
    let done = done.and_then(|()| pair.finish(&mut chance));
    done.map_err(|difference| difference.with(pair.states()))
}

/// The disk of the image, or a fresh one, with the largest data room.
fn kept(image: Option<&[u8]>, chance: &mut Chance, watch: &mut Watch) -> Checked<Kept> {
    let rust = match image {
        None => Ok(Disk::new_formatted()),
        Some(image) => rust_load(image)?,
    };
    let mut store = Store::new(MOST_BYTES, 9, chance);
    match image {
        None => store.fresh(watch)?,
        Some(image) => store.load(image, &rust, watch)?,
    };
    let rust = rust.ok();
    Ok(Kept { rust, store })
}

fn run_call(call: &Call, pair: &mut Pair, chance: &mut Chance) -> Checked {
    match call {
        Call::Put(Slot::Empty) => pair.put(None, 0),
        Call::Put(Slot::A) => pair.put(Some(0), 1),
        Call::Put(Slot::B) => pair.put(Some(1), 1),
        Call::Motor(on) => pair.motor((*on).into()),
        Call::Status(times) => (0..*times).try_for_each(|_| pair.status().map(|_| ())),
        Call::Read(times) => (0..*times).try_for_each(|_| pair.read().map(|_| ())),
        Call::Send { times, bytes } => {
            (0..*times).try_for_each(|_| bytes.iter().try_for_each(|&b| pair.taken(b)))
        }
        Call::Ask => pair.ask(),
        Call::Boxes => pair.compare_data(false),
        Call::Sheet => pair.pause(chance),
        Call::Resume(sheet) => pair.resume(sheet, chance).map(|_| ()),
        Call::Lend {
            buffer: TRANSFER,
            length,
        } => {
            pair.transfer.lend(*length as usize);
            Ok(())
        }
        Call::Lend { .. } | Call::Table { .. } | Call::Number { .. } => {
            Err(Difference::new(call, "a call that the Rust has", "another"))
        }
    }
}
