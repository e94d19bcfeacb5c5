//! Commands by chance, whose parameters mostly name what is there.

use super::{ids, pauses, rooms};
use crate::chance::Chance;
use crate::faults;
use crate::pair::Pair;
use crate::watch::Checked;

/// Sends the bytes; after a refusal mostly sees to it that they can be sent again.
/// Now and then the session pauses between two of them. Answers whether all were
/// taken.
pub fn send_all(pair: &mut Pair, bytes: &[u8], chance: &mut Chance) -> Checked<bool> {
    for &b in bytes {
        pauses::perhaps(pair, chance)?;
        if pair.send(b)? != 0 && !again(pair, b, chance)? {
            return Ok(false);
        }
    }
    Ok(true)
}

/// Sends a refused byte again, with all room, and if that is not enough without
/// the disk. Now and then leaves it.
fn again(pair: &mut Pair, b: u8, chance: &mut Chance) -> Checked<bool> {
    if chance.once_in(5) {
        return Ok(false);
    }
    rooms::whole(pair);
    if pair.send(b)? == 0 {
        return Ok(true);
    }
    pair.put(None, 0)?;
    Ok(pair.send(b)? == 0)
}

/// A command, now and then broken off, or with its last byte sent to a broken
/// table first; with the IDs behind it, if it is a Format that takes some.
pub fn any(pair: &mut Pair, chance: &mut Chance) -> Checked {
    let mut bytes = command(pair, chance);
    if chance.once_in(30) {
        bytes.truncate(1 + chance.below(bytes.len()));
    }
    let fault = chance.once_in(25);
    let (&last, before) = bytes.split_last().expect("no command is empty");
    if !send_all(pair, before, chance)? {
        return Ok(());
    }
    if !fault || broken(pair, last, chance)? != 0 {
        send_all(pair, &[last], chance)?;
    }
    ids::perhaps(pair, chance)
}

/// Sends a byte with a table that breaks the layout.
pub fn broken(pair: &mut Pair, b: u8, chance: &mut Chance) -> Checked<u8> {
    let store = pair.store();
    let table = faults::broken_table(store.table.part(), store.data.lent(), chance);
    pair.send_with(b, Some(&table))
}

/// The second byte of a command: mostly drive 0.
fn unit(chance: &mut Chance) -> u8 {
    match chance.below(12) {
        0 => chance.small(8),
        1 => chance.byte(),
        2..=4 => 4,
        _ => 0,
    }
}

/// A cylinder that mostly is on the disk.
fn cylinder(pair: &Pair, chance: &mut Chance) -> u8 {
    let tracks = pair.rust().disk().map_or(&[][..], |disk| disk.tracks());
    if tracks.is_empty() || chance.once_in(6) {
        return chance.of(&[0, 1, 2, 3, 4, 39, 40, 204, 255]);
    }
    tracks[chance.below(tracks.len())].cylinder()
}

/// The cylinder, the c1 and the ID of a sector that mostly is on the disk.
pub fn somewhere(pair: &Pair, chance: &mut Chance) -> (u8, u8, [u8; 4]) {
    let tracks = pair.rust().disk().map_or(&[][..], |disk| disk.tracks());
    let cylinder = cylinder(pair, chance);
    let mut found = tracks.iter().filter(|track| track.cylinder() == cylinder);
    match found.next() {
        Some(track) if !track.sectors().is_empty() => {
            let id = &track.sectors()[chance.below(track.sectors().len())].id;
            (cylinder, (track.side() & 1) * 4, [id.c, id.h, id.r, id.n])
        }
        _ => (cylinder, unit(chance), [cylinder, 0, 1, chance.byte()]),
    }
}

/// The head and the ID of a sector that mostly is under the heads.
fn sector(pair: &Pair, chance: &mut Chance) -> (u8, [u8; 4]) {
    let c1 = unit(chance);
    let cylinder = pair.rust().current_track();
    let disk = pair.rust().disk();
    let track = disk.and_then(|disk| disk.get_track(c1 >> 2 & 1, cylinder));
    match track.map(|track| track.sectors()) {
        Some(sectors) if !sectors.is_empty() && !chance.once_in(10) => {
            let id = &sectors[chance.below(sectors.len())].id;
            (c1, [id.c, id.h, id.r, id.n])
        }
        _ => {
            let r = chance.small(6);
            (c1, [cylinder, c1 >> 2 & 1, r, chance.small(4)])
        }
    }
}

fn command(pair: &Pair, chance: &mut Chance) -> Vec<u8> {
    let c1 = unit(chance);
    match chance.below(48) {
        0..=15 => read_data(pair, chance),
        16..=21 => vec![chance.of(&[0x0a, 0x4a]), c1],
        22..=25 => format(c1, chance),
        26..=33 => vec![0x0f, c1, cylinder(pair, chance)],
        34 => vec![0x07, c1],
        35..=38 => vec![0x08],
        39 | 40 => vec![0x04, c1],
        41 => vec![0x03, chance.byte(), chance.byte()],
        42 => vec![chance.of(&[0x10, 0x30, 0xf0])],
        43 => [
            &[chance.of(&[0x49, 0x42, 0x51, 0x59, 0x5d]), c1],
            &[1; 7][..],
        ]
        .concat(),
        44 => vec![chance.byte()],
        _ => vec![0x0f, 0, cylinder(pair, chance)],
    }
}

fn read_data(pair: &Pair, chance: &mut Chance) -> Vec<u8> {
    let (c1, [c, h, r, n]) = sector(pair, chance);
    let eot = match chance.below(4) {
        0 => r,
        1 => chance.of(&[0, 5, 9, 66, 255]),
        _ => r.saturating_add(chance.small(6)),
    };
    let first = chance.of(&[0x46, 0x46, 0x46, 0x06, 0x66, 0xc6, 0x4c, 0x0c, 0xec]);
    vec![first, c1, c, h, r, n, eot, chance.byte(), chance.byte()]
}

fn format(c1: u8, chance: &mut Chance) -> Vec<u8> {
    let n = chance.of(&[0, 0, 0, 1, 2, 3, 4, 255]);
    let count = match chance.below(12) {
        0 => chance.of(&[0, 66, 255]),
        _ => chance.small(10),
    };
    let (gap, filler) = (chance.byte(), chance.byte());
    vec![chance.of(&[0x0d, 0x4d]), c1, n, count, gap, filler]
}

/// A Write Data with its bytes.
pub fn write(pair: &mut Pair, chance: &mut Chance) -> Checked {
    let (c1, [c, h, r, n]) = sector(pair, chance);
    let first = chance.of(&[0x45, 0x45, 0x05, 0x85, 0xc5]);
    let command = [first, c1, c, h, r, n, chance.byte(), 0x2a, 0xff];
    send_all(pair, &command, chance)?;
    let Some((_, _, left, _)) = pair.rust().boxes().write else {
        return Ok(());
    };
    let data = chance.bytes(left);
    phase(pair, &data, chance)
}

/// Sends the bytes that a write or a Format takes; something may come between, and bytes
/// may be too few.
pub fn phase(pair: &mut Pair, data: &[u8], chance: &mut Chance) -> Checked {
    let part = chance.below(data.len() + 1);
    if !send_all(pair, &data[..part], chance)? {
        return Ok(());
    }
    match chance.below(10) {
        0 => pair.put(disk(pair, chance), 1)?,
        1 => {
            pair.status()?;
        }
        2 => {
            pair.read()?;
        }
        3 => rooms::change(pair, chance),
        4 => return Ok(()),
        5 if part < data.len() => {
            if broken(pair, data[part], chance)? == 0 {
                return Ok(());
            }
        }
        6 => pair.pause(chance)?,
        _ => {}
    }
    send_all(pair, &data[part..], chance)?;
    Ok(())
}

/// A disk to put in, or none.
pub fn disk(pair: &Pair, chance: &mut Chance) -> Option<usize> {
    let number = chance.below(pair.disks() * 2 + 1);
    (number > 0).then(|| number % pair.disks())
}
