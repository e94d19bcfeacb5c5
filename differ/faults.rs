//! Bytes that no controller and no store has, for refusals 1 and 2.

use crate::chance::Chance;
use crate::host::{CONTROLLER, TABLE};
use crate::layout;
use crate::view::{
    C1, COUNT, CYLINDER, DISK, FILL, FROM, GOAL, HELD, KIND, LOST, MOTOR, PLACE, SECTOR, SECTORS,
    SEEK, SETTING, TAKEN, TRACK, UNTIL, WRITE,
};

/// A table that breaks the layout with a data buffer of this length, made from a
/// good one: of a wrong length, or with wrong numbers.
pub fn broken_table(table: &[u8], data: usize, chance: &mut Chance) -> Vec<u8> {
    let mut broken = table.to_vec();
    match chance.below(8) {
        0 => broken.truncate(chance.of(&[0, 1, TABLE - 1])),
        1 => broken.push(0),
        2 => broken[0] = 205 + chance.small(51),
        _ => {
            for _ in 0..8 {
                broken[chance.below(table.len().min(120))] = chance.byte();
            }
        }
    }
    if layout::keeps(&broken, data) {
        broken[0] = 255;
    }
    broken
}

/// A controller that cannot be, made from one that can: of a wrong length, or with
/// one impossible number.
pub fn impossible(controller: &[u8], chance: &mut Chance) -> Vec<u8> {
    let mut bytes = controller.to_vec();
    match chance.below(16) {
        0 => bytes.truncate(chance.of(&[0, 1, HELD, CONTROLLER - 1])),
        1 => bytes.push(0),
        2 => (bytes[PLACE], bytes[FILL]) = (4, 3),
        3 => (bytes[PLACE], bytes[FILL]) = (0, over(chance, 8)),
        4 => {
            bytes[0] = chance.of(&[0x46, 0x45, 0x4d, 0x0a, 0x04, 0x03, 0x08, 0xff]);
            bytes[COUNT] = over(chance, length(bytes[0]));
        }
        5 => bytes[LOST] = over(chance, 3),
        6 => {
            let until: u32 = chance.of(&[0, 1, 255, 256, 65_535]);
            bytes[FROM..UNTIL].copy_from_slice(&(until + 1).to_le_bytes());
            bytes[UNTIL..LOST].copy_from_slice(&until.to_le_bytes());
        }
        7 => bytes[SEEK] = over(chance, 3),
        8 => bytes[chance.of(&[MOTOR, WRITE, DISK, SETTING, KIND])] = over(chance, 2),
        9 => {
            bytes[WRITE] = 1;
            bytes[C1] = chance.byte() & 0xfc | 1 + chance.small(3);
        }
        10 | 11 => full_write(&mut bytes, chance),
        _ => wrong_format(&mut bytes, chance),
    }
    bytes
}

/// A write that has as many bytes as its sector, or more.
fn full_write(bytes: &mut [u8], chance: &mut Chance) {
    let id = chance.bytes(4);
    let size = 128u16 << (id[3] & 3);
    (bytes[WRITE], bytes[KIND], bytes[C1]) = (1, SECTOR, 0);
    bytes[GOAL..TAKEN].copy_from_slice(&id);
    take(bytes, chance.of(&[size, size + 1, 1_024, 65_535]));
}

/// A Format of the data-sheet machine that has all its IDs, or more, or is for another
/// drive; or one of the Rust machine.
fn wrong_format(bytes: &mut [u8], chance: &mut Chance) {
    let count = chance.of(&[0, 1, 9, 255]);
    let whole = 4 * u16::from(count);
    let part = chance.below(whole.max(1).into()) as u16;
    let ids = chance.of(&[whole, whole, whole + 1, 1_024, 65_535]);
    let drive = 1 + chance.small(3);
    (bytes[WRITE], bytes[KIND]) = (1, TRACK);
    bytes[GOAL..TAKEN].copy_from_slice(&chance.bytes(4));
    bytes[SECTORS] = count;
    let (setting, c1, taken) = chance.of(&[(1, 0, ids), (1, drive, part), (0, 0, part)]);
    (bytes[SETTING], bytes[C1]) = (setting, chance.byte() & 0xfc | c1);
    take(bytes, taken);
}

/// Has so many bytes held.
fn take(bytes: &mut [u8], taken: u16) {
    bytes[TAKEN..CYLINDER].copy_from_slice(&taken.to_le_bytes());
}

/// A controller whose data reach beyond a transfer room, mostly by one byte. It is
/// refused by the calls that are lent the transfer buffer, and by no other.
pub fn beyond(controller: &[u8], room: usize, chance: &mut Chance) -> Vec<u8> {
    let mut bytes = controller.to_vec();
    let until = room + chance.of(&[1, 1, 1, 2, 4_096]);
    let from = until - chance.below(3).min(until);
    bytes[FROM..UNTIL].copy_from_slice(&(from as u32).to_le_bytes());
    bytes[UNTIL..LOST].copy_from_slice(&(until as u32).to_le_bytes());
    bytes
}

/// A number that is too large, mostly just so.
fn over(chance: &mut Chance, least: u8) -> u8 {
    match chance.below(4) {
        0 => 255,
        1 => least + chance.small(255 - least),
        _ => least,
    }
}

/// How many bytes the command of this first byte has, for the few used above.
fn length(first: u8) -> u8 {
    match first {
        0x46 | 0x45 => 9,
        0x4d => 6,
        0x03 => 3,
        0x0a | 0x04 => 2,
        _ => 1,
    }
}
