//! Sheets made by chance, and damaged ones.

use raze::floppy::SectorId;

use crate::capacities::MOST_TRANSFER;
use crate::chance::Chance;
use crate::datasheet::{Format, Machine};
use crate::sheet::{
    self, BOXES, COMMAND, DATA, FORMAT, HEAD, LOST, MACHINE, MOTOR, OLD_VERSION, REPLY, SEEK,
    Sheet, VERSION, WRITE, Write,
};

/// First bytes of commands of every length.
const FIRSTS: [u8; 10] = [0x46, 0x4c, 0x45, 0x4d, 0x4a, 0x0f, 0x04, 0x03, 0x49, 0x62];

/// A sheet that may be, with this cylinder, and if there is a write or a Format with this
/// c1, and this ID or its n. Its unread data mostly fit a transfer buffer of this length.
pub fn any(
    cylinder: u8,
    c1: u8,
    [c, h, r, n]: [u8; 4],
    transfer: usize,
    chance: &mut Chance,
) -> Sheet {
    let (id, c1) = (SectorId { c, h, r, n }, c1 & 0xfc);
    let machine = chance.of(&Machine::ALL);
    let write = chance.once_in(2).then(|| write(c1, id, chance));
    let may_format = machine == Machine::DataSheet && write.is_none();
    let format = (may_format && chance.once_in(2)).then(|| format(c1, n, chance));
    Sheet {
        motor: chance.once_in(2),
        cylinder,
        seek: chance.small(3),
        index: index(chance),
        command: command(chance),
        reply: up_to(7, chance),
        data: data(transfer, chance),
        lost: chance.small(3),
        write,
        machine,
        format,
    }
}

/// The sheet of today, or now and then of the version before, which is of the Rust machine
/// and has no Format.
pub fn bytes(sheet: &Sheet, chance: &mut Chance) -> Vec<u8> {
    if chance.once_in(5) {
        return sheet.old_bytes();
    }
    sheet.bytes()
}

/// The longest sheet.
pub fn longest(chance: &mut Chance) -> Sheet {
    let id = SectorId {
        c: 0,
        h: 0,
        r: 1,
        n: 3,
    };
    let held = chance.bytes(id.len() - 1);
    Sheet {
        command: vec![0x46; 8],
        reply: chance.bytes(7),
        data: chance.bytes(MOST_TRANSFER),
        write: Some(Write { c1: 0, id, held }),
        machine: chance.of(&Machine::ALL),
        ..Sheet::default()
    }
}

/// Up to so many bytes.
fn up_to(most: usize, chance: &mut Chance) -> Vec<u8> {
    let length = chance.below(most + 1);
    chance.bytes(length)
}

fn index(chance: &mut Chance) -> u16 {
    let any = chance.next() as u16;
    chance.of(&[0, 1, 255, 256, 65_534, 65_535, any])
}

/// A command that lacks at least one byte, mostly for drive 0.
fn command(chance: &mut Chance) -> Vec<u8> {
    if chance.once_in(2) {
        return Vec::new();
    }
    let (first, unit) = (chance.of(&FIRSTS), chance.of(&[0, 0, 4, 1]));
    let mut command = [vec![first, unit], up_to(6, chance)].concat();
    command.truncate(1 + chance.below(8));
    while !sheet::is_partial(&command) {
        command.pop();
    }
    command
}

/// Unread data, now and then just as many as a transfer buffer of this length takes,
/// or one byte more.
fn data(length: usize, chance: &mut Chance) -> Vec<u8> {
    let (room, any) = (length.min(MOST_TRANSFER), chance.below(700));
    let length = match chance.below(12) {
        0 => room,
        1 => room + 1,
        _ => chance.of(&[0, 0, 0, 1, 7, 128, 512, any]),
    };
    chance.bytes(length)
}

fn write(c1: u8, id: SectorId, chance: &mut Chance) -> Write {
    let most = id.len() - 1;
    let any = chance.below(most);
    let held = chance.of(&[0, 1, any, any, most, most]);
    let held = chance.bytes(held);
    Write { c1, id, held }
}

/// A Format that lacks at least one ID byte.
fn format(c1: u8, n: u8, chance: &mut Chance) -> Format {
    let count = chance.of(&[1, 2, 3, 9, 255]);
    let most = 4 * usize::from(count) - 1;
    let any = chance.below(most);
    let length = chance.of(&[0, any, any, most, most]);
    Format {
        c1,
        n,
        count,
        gap: chance.byte(),
        filler: chance.byte(),
        ids: chance.bytes(length),
    }
}

/// A sheet that is damaged, or holds what no controller has; now and then it is still
/// a good one.
pub fn damaged(sheet: &Sheet, chance: &mut Chance) -> Vec<u8> {
    let mut bytes = bytes(sheet, chance);
    match chance.below(12) {
        0 => bytes.truncate(chance.below(bytes.len())),
        1 => bytes.extend(up_to(5, chance)),
        2 => bytes[0] = chance.of(&[0, OLD_VERSION, VERSION, 3, 255]),
        3 => bytes = sheet::framed(chance.small(4), &cut(&bytes[HEAD..], chance)),
        4 => lie(&mut bytes, sheet, chance),
        5 => {
            let place = chance.below(bytes.len());
            bytes[place] = chance.byte();
        }
        6 => {
            let length = chance.below(90);
            bytes = sheet::framed(1 + chance.small(2), &chance.bytes(length));
        }
        7 => bytes = sheet::laid(&resized(sheet.boxes(), chance)),
        _ => bytes = sheet::laid(&impossible(sheet.boxes(), chance)),
    }
    bytes
}

/// The bytes with some more or fewer at the end.
fn cut(bytes: &[u8], chance: &mut Chance) -> Vec<u8> {
    if chance.once_in(2) {
        return [bytes, &up_to(3, chance)].concat();
    }
    bytes[..bytes.len() - chance.below(4)].to_vec()
}

/// Another byte in the length of the rest, or in that of a box.
fn lie(bytes: &mut [u8], sheet: &Sheet, chance: &mut Chance) {
    let mut places: Vec<usize> = (1..HEAD).collect();
    for (place, width) in sheet::lengths(&sheet.boxes()) {
        places.extend(place..place + width);
    }
    places.retain(|&place| place < bytes.len());
    let byte = &mut bytes[chance.of(&places)];
    *byte = match chance.below(4) {
        0 => byte.wrapping_add(1),
        1 => byte.wrapping_sub(1),
        2 => 255,
        _ => chance.byte(),
    };
}

/// One box longer, shorter or empty.
fn resized(mut boxes: [Vec<u8>; BOXES], chance: &mut Chance) -> [Vec<u8>; BOXES] {
    let one = &mut boxes[chance.below(BOXES)];
    match chance.below(3) {
        0 => one.clear(),
        1 => one.truncate(one.len().saturating_sub(1)),
        _ => one.push(chance.byte()),
    }
    boxes
}

/// One box at or over the greatest that it may hold.
fn impossible(mut boxes: [Vec<u8>; BOXES], chance: &mut Chance) -> [Vec<u8>; BOXES] {
    match chance.below(12) {
        0 => boxes[MOTOR] = vec![chance.of(&[1, 2, 255])],
        1 => boxes[SEEK] = vec![chance.of(&[2, 3, 255])],
        2 => boxes[LOST] = vec![chance.of(&[2, 3, 255])],
        3 => boxes[REPLY] = reply(chance),
        4 => {
            let first = chance.of(&FIRSTS);
            let length = chance.below(11);
            boxes[COMMAND] = [vec![first], vec![0; length]].concat();
        }
        5 => boxes[WRITE] = [0, 0, 0, 1, 0][..chance.below(6)].to_vec(),
        6 => boxes[WRITE] = vec![chance.byte(), 0, 0, 1, 0],
        7 => boxes[WRITE] = full(chance),
        8 => boxes[MACHINE] = vec![chance.small(3)],
        9 => boxes[FORMAT] = [0, 0, 1, 0, 0][..chance.below(6)].to_vec(),
        10 => boxes[FORMAT] = vec![chance.byte(), 0, 1, 0, 0],
        _ => formatted(&mut boxes, chance),
    }
    if chance.once_in(6) {
        boxes[DATA] = vec![chance.byte(); MOST_TRANSFER + 1];
    }
    boxes
}

/// A Format that lacks one ID byte, that has all, or one more; mostly of the data-sheet
/// machine, and with no write beside it.
fn formatted(boxes: &mut [Vec<u8>; BOXES], chance: &mut Chance) {
    let count = chance.of(&[0, 1, 9, 255]);
    let all = 4 * usize::from(count);
    let ids = chance.of(&[all.saturating_sub(1), all, all + 1]);
    boxes[FORMAT] = [vec![0, 1, count, 0, 0], chance.bytes(ids)].concat();
    if !chance.once_in(5) {
        boxes[MACHINE] = vec![Machine::DataSheet.number()];
    }
    if !chance.once_in(5) {
        boxes[WRITE].clear();
    }
}

/// A reply of seven bytes, or of more.
fn reply(chance: &mut Chance) -> Vec<u8> {
    let length = chance.of(&[7, 8, 8, 9, 300]);
    chance.bytes(length)
}

/// A write that lacks one byte, that has all, or one more.
fn full(chance: &mut Chance) -> Vec<u8> {
    let n = chance.of(&[0, 1, 2, 3, 4, 255]);
    let size: usize = 128 << (n & 3);
    let held = chance.of(&[size - 1, size, size, size + 1]);
    [vec![0, 0, 0, 1, n], chance.bytes(held)].concat()
}
