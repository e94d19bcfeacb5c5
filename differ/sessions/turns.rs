//! One turn of a session: a call, several of them, or a command.

use super::{commands, ids, pauses, rooms};
use crate::chance::Chance;
use crate::pair::Pair;
use crate::watch::Checked;

/// The longest run of status reads.
const MOST_POLLS: usize = 3_000;

/// First bytes of commands that look at the disk, so that noise meets them often.
const FIRSTS: [u8; 8] = [0x46, 0x4c, 0x45, 0x4a, 0x4d, 0x0f, 0x07, 0x08];

/// A turn of a program that knows its disk.
pub fn traffic(pair: &mut Pair, chance: &mut Chance) -> Checked {
    match chance.below(100) {
        0..=3 => pair.put(commands::disk(pair, chance), chance.byte()),
        4 | 5 => pair.motor(chance.small(3)),
        6..=14 => repeat(chance.of(&[1, 1, 2, 3, 5, 40]), || pair.status()),
        15 => poll_empty(pair, chance),
        16..=27 => repeat(chance.of(&[1, 2, 7, 7, 20, 135, 700]), || pair.read()),
        28..=33 => read_empty(pair, chance),
        34 | 35 => pair.ask(),
        36 | 37 => {
            rooms::change(pair, chance);
            Ok(())
        }
        38 | 39 => pair.impossible(chance),
        40 | 41 => pair.scramble(chance),
        42 => pair.lookups(chance),
        43..=52 => commands::write(pair, chance),
        53 | 54 => pair.pause(chance),
        55 => pauses::damaged(pair, chance),
        _ => commands::any(pair, chance),
    }
}

/// A turn of a program that formats tracks, most of which are not there, with the IDs
/// that it takes.
pub fn formats(pair: &mut Pair, chance: &mut Chance) -> Checked {
    if chance.once_in(2) {
        return traffic(pair, chance);
    }
    if pair.rust().disk().is_none() {
        pair.put(Some(0), 1)?;
    }
    let any = chance.byte();
    let cylinder = chance.of(&[0, 7, 8, 9, 199, 203, 204, 205, any]);
    let (n, count) = (chance.small(4), chance.of(&[0, 0, 1, 2, 5, 255]));
    let head = chance.small(2) * 4;
    let bytes = [0x0f, 0, cylinder, 0x4d, head, n, count, 0x2a, 0xe5];
    commands::send_all(pair, &bytes, chance)?;
    ids::perhaps(pair, chance)
}

/// A turn of a program that sends any bytes.
pub fn noise(pair: &mut Pair, chance: &mut Chance) -> Checked {
    match chance.below(20) {
        0 => pair.put(commands::disk(pair, chance), chance.byte()),
        1 => pair.motor(chance.byte()),
        2 | 3 => repeat(chance.below(6), || pair.status()),
        4..=6 => repeat(chance.below(30), || pair.read()),
        7 => pair.ask(),
        8 => {
            rooms::change(pair, chance);
            Ok(())
        }
        9 => pair.impossible(chance),
        10 => pair.scramble(chance),
        11 => {
            let b = byte(chance);
            commands::broken(pair, b, chance).map(|_| ())
        }
        12 => pair.pause(chance),
        _ => {
            let length = 1 + chance.below(40);
            let bytes: Vec<u8> = (0..length).map(|_| byte(chance)).collect();
            commands::send_all(pair, &bytes, chance).map(|_| ())
        }
    }
}

/// A byte: small, a first byte, or any.
fn byte(chance: &mut Chance) -> u8 {
    match chance.below(5) {
        0..=2 => chance.small(4),
        3 => chance.of(&FIRSTS),
        _ => chance.byte(),
    }
}

fn repeat(times: usize, mut call: impl FnMut() -> Checked<u8>) -> Checked {
    (0..times).try_for_each(|_| call().map(|_| ()))
}

/// Reads the status until no data is left, or long enough.
fn poll_empty(pair: &mut Pair, chance: &mut Chance) -> Checked {
    for _ in 0..MOST_POLLS {
        if pair.rust().unread().0 == 0 {
            break;
        }
        pauses::perhaps(pair, chance)?;
        pair.status()?;
    }
    pair.status().map(|_| ())
}

/// Reads all data and the reply, now and then with the status before each.
fn read_empty(pair: &mut Pair, chance: &mut Chance) -> Checked {
    let polls = chance.once_in(3);
    let (data, reply) = pair.rust().unread();
    for _ in 0..data + reply + 1 {
        pauses::perhaps(pair, chance)?;
        if polls {
            pair.status()?;
        }
        pair.read()?;
    }
    Ok(())
}
