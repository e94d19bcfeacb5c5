//! Which sector is served, before the cases of a run: lookups and commands on disks with
//! equal IDs. What each byte tells is also told by hand.

mod disks;

use crate::by_hand::{self, refused, same};
use crate::datasheet::Machine;
use crate::dsk::{Sector, Track};
use crate::found::Match;
use crate::pair::Pair;
use crate::watch::{Checked, Watch, told};
use disks::{Case, WANTED, at, numbers};

/// A sector of n 0.
const DATA: [u8; 128] = [0x5a; 128];

/// Runs them all, to the first difference. Answers whether there was none.
pub fn run(watch: &mut Watch) -> bool {
    let said = |name: &str, done| told(format_args!("served    {name}"), done);
    let mut firsts = 0..=255;
    disks::all()
        .iter()
        .all(|case| said(case.name, on_disk(case, watch)))
        && firsts.all(|first| said(&format!("{first:02x}"), first_byte(first, watch)))
        && said("disk changes", changes(watch))
        && said("refusals", refusals(watch))
}

/// Plays with these disks on the Rust machine, the first of them in the drive.
fn with(disks: &[&[Track]], watch: &mut Watch, play: impl FnOnce(&mut Pair) -> Checked) -> Checked {
    by_hand::with(Machine::Rust, disks, watch, play)
}

/// Sends bytes that are taken, of which only the last tells of a sector, or of none.
fn tells(pair: &mut Pair, bytes: &[u8], told: Option<Match>) -> Checked {
    let (&last, before) = bytes.split_last().expect("there is a last byte");
    before.iter().try_for_each(|&b| step(pair, b, None))?;
    step(pair, last, told)
}

/// Sends a byte that is taken, and tells of this sector, or of none.
fn step(pair: &mut Pair, b: u8, told: Option<Match>) -> Checked {
    pair.taken(b)?;
    same(format_args!("send {b:02x}, by hand"), told, pair.found())
}

/// A command of nine bytes for the wanted sector.
fn command(first: u8, c1: u8, eot: u8) -> [u8; 9] {
    let [c, h, r, n] = WANTED;
    [first, c1, c, h, r, n, eot, 0x2a, 0xff]
}

/// Every search for the wanted sector, on this disk.
fn on_disk(case: &Case, watch: &mut Watch) -> Checked {
    with(&[&case.tracks], watch, |pair| {
        tells(pair, &[0x0f, 0, case.cylinder], None)?;
        pair.lookup(case.address())?;
        searches(case, pair)?;
        not_ready(case, pair)?;
        pair.lookup(case.address())?;
        [1, 2, 255]
            .into_iter()
            .try_for_each(|count| formatted(case, count, pair))
    })
}

/// Read, Read Deleted, up to several numbers; Write Data and its bytes; Read ID.
fn searches(case: &Case, pair: &mut Pair) -> Checked {
    let c1 = case.c1();
    for eot in [0, 1, 2, 3, 255] {
        tells(pair, &command(0x46, c1, eot), case.told)?;
        tells(pair, &command(0x4c, c1, eot), case.told)?;
    }
    tells(pair, &[0x4a, c1], None)?;
    tells(pair, &command(0x45, c1, 1), case.told)?;
    if case.told.is_some() {
        tells(pair, &DATA, case.told)?;
    }
    Ok(())
}

/// The same commands for the other drives, and without a disk.
fn not_ready(case: &Case, pair: &mut Pair) -> Checked {
    let firsts = [0x46, 0x4c, 0x45];
    for first in firsts {
        for drive in 1..=3 {
            tells(pair, &command(first, case.c1() | drive, 1), None)?;
        }
    }
    pair.put(None, 0)?;
    for first in firsts {
        tells(pair, &command(first, case.c1(), 1), None)?;
    }
    pair.put(Some(0), 1)
}

/// A Format, which tells of none and leaves one of each number, and reads behind it.
fn formatted(case: &Case, count: u8, pair: &mut Pair) -> Checked {
    let (c1, c, h) = (case.c1(), case.cylinder, case.side);
    tells(pair, &[0x4d, c1, 0, count, 0x2a, 0xe5], None)?;
    for (r, told) in [(1, at(1, 1)), (count, at(count.into(), 1)), (0, None)] {
        tells(pair, &[0x46, c1, c, h, r, 0, r, 0x2a, 0xff], told)?;
        pair.lookup([h, c, c, h, r, 0])?;
    }
    Ok(())
}

/// The command of a first byte, with the wanted ID behind it. Only reads and writes tell
/// of a sector, at their ninth byte; a write does so at its last byte as well.
fn first_byte(first: u8, watch: &mut Watch) -> Checked {
    let told = match (first & 0x1f, first & 0x3f) {
        (0x06 | 0x0c, _) | (_, 0x05) => at(2, 2),
        _ => None,
    };
    with(&[&[numbers([2, 1, 1])]], watch, |pair| {
        for (place, b) in (1..).zip(command(first, 0, 1)) {
            step(pair, b, told.filter(|_| place == 9))?;
            if pair.rust().boxes().command.is_empty() {
                break;
            }
        }
        match pair.rust().boxes().write {
            Some(_) => tells(pair, &DATA, told),
            None => Ok(()),
        }
    })
}

/// Reads and writes that begin on one disk and end on another, or on none.
fn changes(watch: &mut Watch) -> Checked {
    let three = [numbers([1, 1, 1])];
    let two = [numbers([9, 1, 8, 1])];
    let none = [numbers([9, 8])];
    let ends = [
        (Some(0), at(1, 3)),
        (Some(1), at(2, 2)),
        (Some(2), None),
        (None, None),
    ];
    with(&[&three, &two, &none], watch, |pair| {
        for (end, told) in ends {
            for sent in [1, 5, 8] {
                changed(pair, &command(0x46, 0, 1), sent, end, told)?;
            }
            for sent in [1, 64, 127] {
                pair.put(Some(0), 1)?;
                tells(pair, &command(0x45, 0, 1), at(1, 3))?;
                changed(pair, &DATA, sent, end, told)?;
            }
        }
        Ok(())
    })
}

/// Sends so many of the bytes with the first disk in, and the others with another.
fn changed(
    pair: &mut Pair,
    bytes: &[u8],
    sent: usize,
    end: Option<usize>,
    told: Option<Match>,
) -> Checked {
    pair.put(Some(0), 1)?;
    tells(pair, &bytes[..sent], None)?;
    pair.put(end, 1)?;
    tells(pair, &bytes[sent..], told)
}

/// A read over the transfer room and a write over the data room: a refused byte tells
/// its number alone, and which sector it is once it is taken.
fn refusals(watch: &mut Watch) -> Checked {
    let sectors = [2, 1, 1].map(|r| Sector::stored([0, 0, r, 0], 100));
    let track = Track::new(0, 0, sectors.to_vec());
    with(&[&[track]], watch, |pair| {
        let read = command(0x46, 0, 1);
        tells(pair, &read[..8], None)?;
        pair.transfer.lend(99);
        refused(pair, read[8], 9)?;
        pair.transfer.lend(100);
        tells(pair, &read[8..], at(2, 2))?;
        tells(pair, &command(0x45, 0, 1), at(2, 2))?;
        tells(pair, &DATA[..127], None)?;
        pair.store().data.lend(327);
        refused(pair, DATA[127], 8)?;
        pair.store().data.lend(328);
        tells(pair, &DATA[127..], at(2, 2))
    })
}
