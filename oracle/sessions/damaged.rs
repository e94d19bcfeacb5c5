//! Bytes that are read as a sheet and are none, or hold what no controller has; and
//! the good ones beside them. The Rust knows no sheets: which are refused is told by
//! the words of requests 2026-01 and 2026-06 (`oracle/sheet.rs`).

use raze::floppy::SectorId;

use super::{List, no_tracks};
use crate::datasheet::Machine;
use crate::session::Call;
use crate::sheet::{
    self, BOXES, COMMAND, DATA, FORMAT, HEAD, LOST, MACHINE, MOTOR, OLD_VERSION, REPLY, SEEK,
    Sheet, VERSION, WRITE, Write,
};

/// Adds the sessions with damaged sheets.
pub fn add(list: &mut List) {
    add_cuts(list);
    add_frames(list);
    add_lengths_that_lie(list);
    add_box_lengths(list);
    add_ranges(list);
    add_commands(list);
    add_writes(list);
    add_old(list);
    add_machines(list);
    add_formats(list);
    add_rooms(list);
}

/// A good sheet with something in every box but that of a Format, which none beside a
/// write has.
fn good() -> Sheet {
    Sheet {
        motor: true,
        cylinder: 5,
        seek: 1,
        index: 0x0102,
        command: vec![0x46, 0],
        reply: vec![0x40, 0x80, 0],
        data: vec![1, 2, 3, 4],
        lost: 1,
        write: Some(Write {
            c1: 4,
            id: ID,
            held: vec![9, 8, 7],
        }),
        machine: Machine::DataSheet,
        format: None,
    }
}

const ID: SectorId = SectorId {
    c: 5,
    h: 1,
    r: 1,
    n: 0,
};

/// Adds a session that takes up the good sheet and reads each of these in turn, with
/// a look at what is left.
fn add_all(list: &mut List, name: &str, sheets: impl IntoIterator<Item = Vec<u8>>) {
    let sheets = [good().bytes()].into_iter().chain(sheets);
    let calls: Vec<Call> = sheets.flat_map(tried).collect();
    list.add(
        format!("sheet-damaged-{name}"),
        [no_tracks(), no_tracks()],
        &calls,
    );
}

fn tried(sheet: Vec<u8>) -> [Call; 2] {
    [Call::Resume(sheet), Call::Boxes]
}

/// The good sheet with another box in one place, its lengths right.
fn with(place: usize, bytes: &[u8]) -> Vec<u8> {
    let mut boxes = good().boxes();
    boxes[place] = bytes.to_vec();
    sheet::laid(&boxes)
}

/// The good sheet with another byte in one place.
fn with_byte(place: usize, byte: u8) -> Vec<u8> {
    let mut bytes = good().bytes();
    bytes[place] = byte;
    bytes
}

/// The good sheet, cut at every byte, the length of the rest right and not.
fn add_cuts(list: &mut List) {
    let bytes = good().bytes();
    let cuts = (0..bytes.len()).map(|length| bytes[..length].to_vec());
    add_all(list, "cut", cuts);
    let rest = &bytes[HEAD..];
    let cuts = (0..rest.len()).map(|length| sheet::framed(VERSION, &rest[..length]));
    add_all(list, "cut-with-its-length", cuts);
}

/// The version, the length of the rest, and bytes left over.
fn add_frames(list: &mut List) {
    let versions = [0, OLD_VERSION, 3, 4, 128, 255].map(|version| with_byte(0, version));
    add_all(list, "version", versions);
    let rest = good().bytes().len() - HEAD;
    let lengths = [
        0,
        1,
        rest - 1,
        rest + 1,
        rest + 256,
        rest + (1 << 24),
        u32::MAX as usize,
    ];
    let lengths = lengths.map(|length| {
        let length = (length as u32).to_be_bytes();
        [&[VERSION], &length[..], &good().bytes()[HEAD..]].concat()
    });
    add_all(list, "length-of-the-rest", lengths);
    let over = [&[0][..], &[0, 0], &[1], &[0; 300]];
    let silent = over.map(|more| [&good().bytes(), more].concat());
    let counted = over.map(|more| {
        let rest = [&good().bytes()[HEAD..], more].concat();
        sheet::framed(VERSION, &rest)
    });
    add_all(list, "left-over", silent.into_iter().chain(counted));
}

/// Each byte of each length one more, one less and 255, all else as it was.
fn add_lengths_that_lie(list: &mut List) {
    let bytes = good().bytes();
    let places = sheet::lengths(&good().boxes()).into_iter();
    let places = places.flat_map(|(place, width)| place..place + width);
    let sheets = places.flat_map(|place| {
        let old = bytes[place];
        [old.wrapping_add(1), old.wrapping_sub(1), 255].map(|byte| with_byte(place, byte))
    });
    add_all(list, "lengths-that-lie", sheets);
}

/// Each box empty, one byte shorter and one byte longer, its length right.
fn add_box_lengths(list: &mut List) {
    let boxes = good().boxes();
    let sheets = boxes.iter().enumerate().flat_map(|(place, bytes)| {
        let longer = [&bytes[..], &[0]].concat();
        let shorter = &bytes[..bytes.len().saturating_sub(1)];
        [with(place, &[]), with(place, shorter), with(place, &longer)]
    });
    let mut sheets: Vec<Vec<u8>> = sheets.collect();
    sheets.dedup();
    add_all(list, "box-lengths", sheets);
    let whole = sheet::laid(&good().boxes().map(|_| Vec::new()));
    let missing = (0..BOXES).map(|number| {
        let (place, width) = sheet::lengths(&good().boxes())[number];
        let bytes = good().bytes();
        let behind = place + width + good().boxes()[number].len();
        sheet::framed(VERSION, &[&bytes[HEAD..place], &bytes[behind..]].concat())
    });
    add_all(list, "boxes-missing", [whole].into_iter().chain(missing));
}

/// Motor, seek state, lost count and reply, at their greatest and over it.
fn add_ranges(list: &mut List) {
    let motor = [0, 1, 2, 255].map(|byte| with(MOTOR, &[byte]));
    let seek = [0, 1, 2, 3, 255].map(|byte| with(SEEK, &[byte]));
    let lost = [0, 1, 2, 3, 255].map(|byte| with(LOST, &[byte]));
    let reply = [7, 8, 9, 256].map(|length| with(REPLY, &vec![0xab; length]));
    let sheets = [&motor[..], &seek, &lost, &reply].concat();
    add_all(list, "numbers", sheets);
}

/// Commands that lack one byte, that have all, and that have one more.
fn add_commands(list: &mut List) {
    let firsts = [
        (0x03, 3),
        (0x04, 2),
        (0x07, 2),
        (0x0f, 3),
        (0x08, 1),
        (0x10, 1),
        (0xf0, 1),
        (0x46, 9),
        (0x0c, 9),
        (0xc5, 9),
        (0x25, 1),
        (0x0a, 2),
        (0x4a, 2),
        (0x0d, 6),
        (0x4d, 6),
        (0x49, 9),
        (0x62, 9),
        (0x11, 9),
        (0x59, 9),
        (0xbd, 9),
        (0x00, 1),
        (0xff, 1),
    ];
    let sheets = firsts.into_iter().flat_map(|(first, length)| {
        let command = [first, 0, 0, 0, 1, 2, 1, 42, 255, 0];
        [length - 1, length, length + 1].map(|length| with(COMMAND, &command[..length]))
    });
    add_all(list, "commands", sheets);
}

/// A write box with the bytes of a size by this n, and so many more or fewer.
fn write_of(n: u8, by: isize) -> Vec<u8> {
    let length = ((128 << (n & 3)) + by) as usize;
    let held = (0..length).map(|place| place as u8);
    let head = [0, 5, 0, 1, n];
    with(WRITE, &head.into_iter().chain(held).collect::<Vec<u8>>())
}

/// Writes that lack one byte, that have all or more; boxes too short for an ID; every
/// drive.
fn add_writes(list: &mut List) {
    let sizes = [0, 1, 3, 4];
    let sizes = sizes.map(|n| [-1, 0, 1].map(|by| write_of(n, by))).concat();
    let short = [0, 1, 2, 3, 4, 5].map(|length| with(WRITE, &[0; 5][..length]));
    let drives = [0, 1, 2, 3, 4, 5, 6, 7, 0xfc, 0xfd];
    let drives = drives.map(|c1| with(WRITE, &[c1, 5, 0, 1, 0]));
    add_all(list, "writes", [&sizes[..], &short, &drives].concat());
}

/// The version before: whole, cut at every byte, with a byte and with boxes left over, and
/// with its boxes under the version of today.
fn add_old(list: &mut List) {
    let whole = good().old_bytes();
    let rest = &whole[HEAD..];
    let more = &[&[0][..], &[0, 1, 0], &[0, 1, 0, 0, 0]];
    let longer = more.map(|more| sheet::framed(OLD_VERSION, &[rest, more].concat()));
    let cuts = (0..rest.len()).map(|length| sheet::framed(OLD_VERSION, &rest[..length]));
    let today = sheet::framed(VERSION, rest);
    let sheets = [whole.clone(), today].into_iter().chain(longer).chain(cuts);
    add_all(list, "version-1", sheets);
}

/// The machine at its greatest, over it, and in more or fewer bytes.
fn add_machines(list: &mut List) {
    let machines = [&[0][..], &[1], &[2], &[255], &[], &[0, 0], &[0, 1]];
    add_all(list, "machines", machines.map(|bytes| with(MACHINE, bytes)));
}

/// The sheet of a Format with these numbers and so many ID bytes, of this machine, with
/// these bytes in the box of a write.
fn format_of(numbers: [u8; 5], ids: usize, machine: u8, write: &[u8]) -> Vec<u8> {
    let mut boxes = good().boxes();
    boxes[WRITE] = write.to_vec();
    boxes[MACHINE] = vec![machine];
    boxes[FORMAT] = (0..ids).map(|place| place as u8).collect();
    boxes[FORMAT].splice(0..0, numbers);
    sheet::laid(&boxes)
}

/// Formats that lack IDs, that have all or more; boxes too short for the numbers; every
/// drive; of the Rust machine, and beside a write. A sheet that is written shows all of it.
fn add_formats(list: &mut List) {
    let pending = |c1, count, ids| format_of([c1, 1, count, 0x2a, 0xe5], ids, 1, &[]);
    let counts = [(0, 0), (0, 1), (1, 0), (1, 3), (1, 4), (1, 5), (9, 35)];
    let counts = counts.map(|(count, ids)| pending(0, count, ids));
    let most = [1_019, 1_020, 1_021].map(|ids| pending(4, 255, ids));
    let drives = [0, 1, 2, 3, 4, 5, 6, 7, 0xfc, 0xfd].map(|c1| pending(c1, 2, 3));
    let short = [1, 2, 3, 4, 5].map(|length| with(FORMAT, &[0, 1, 2, 0, 0][..length]));
    let numbers = [0, 1, 2, 0x2a, 0xe5];
    let beside = [0, 1].map(|machine| format_of(numbers, 2, machine, &[0, 0, 0, 1, 0]));
    let alone = [0, 1].map(|machine| format_of(numbers, 2, machine, &[]));
    let sheets = [&counts[..], &most, &drives, &short, &beside, &alone].concat();
    let sheets = sheets.into_iter().chain([good().bytes()]);
    let calls = sheets.flat_map(|sheet| [Call::Resume(sheet), Call::Sheet]);
    let disks = [no_tracks(), no_tracks()];
    list.add(
        "sheet-damaged-formats",
        disks,
        &calls.collect::<Vec<Call>>(),
    );
}

/// Unread data at and over the transfer room; a broken form is told first.
fn add_rooms(list: &mut List) {
    let mut calls = Vec::new();
    for length in [65_536, 40, 1, 0, 39] {
        calls.push(Call::Lend { buffer: 3, length });
        for data in [0, 1, 2, 39, 40, 41] {
            calls.extend(tried(with(DATA, &vec![data; data.into()])));
        }
    }
    let over = Sheet {
        data: vec![0xee; 40],
        ..good()
    };
    let places = [MOTOR, SEEK, LOST, WRITE];
    let broken = places.map(|place| {
        let mut boxes = over.boxes();
        boxes[place] = vec![3];
        sheet::laid(&boxes)
    });
    let version = sheet::framed(3, &over.bytes()[HEAD..]);
    let longer = [over.bytes(), vec![0]].concat();
    let sheets = broken.into_iter().chain([version, longer, over.bytes()]);
    calls.extend(sheets.flat_map(tried));
    calls.push(Call::Lend {
        buffer: 3,
        length: 65_536,
    });
    calls.extend(tried(over.bytes()));
    let disks = [no_tracks(), no_tracks()];
    list.add("sheet-damaged-unread-data-over-the-room", disks, &calls);
}
