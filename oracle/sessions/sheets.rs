//! Sessions that pause: the controller is written out as a sheet and read back, at
//! every step of a save and of a read; and sheets made by noise are taken up.

use raze::floppy::SectorId;

use super::traffic::{self, below, one_of};
use super::{A, B, List, NONE, image, no_tracks, read};
use super::{read_data, send, status, track, write_data};
use crate::noise::Noise;
use crate::session::Call;
use crate::sheet::{self, Sheet, Write};

/// How many sessions take up sheets made by noise, how many sheets each has, and how
/// many turns come behind each of them.
const SESSIONS: u32 = 5;
const SHEETS: usize = 8;
const TURNS: usize = 10;

/// Adds the sessions that pause.
pub fn add(list: &mut List) {
    add_save(list);
    add_read(list);
    add_phases(list);
    add_noise(list);
}

/// A sheet behind each of the calls.
fn paused(calls: impl IntoIterator<Item = Call>) -> Vec<Call> {
    let calls = calls.into_iter();
    calls.flat_map(|call| [call, Call::Sheet]).collect()
}

/// The bytes, sent one by one.
fn each(bytes: &[u8]) -> Vec<Call> {
    bytes.iter().map(|&b| send(&[b])).collect()
}

/// So many reads of the data port, one by one.
fn reads(times: usize) -> Vec<Call> {
    vec![read(1); times]
}

/// A whole save: Seek and its interrupt, Write Data with all its bytes, the reply.
fn add_save(list: &mut List) {
    let data: Vec<u8> = (0..512u16)
        .map(|place| (place * 7 + place / 256) as u8)
        .collect();
    let calls = [
        vec![A, Call::Motor(true)],
        each(&[0x0f, 0, 5, 0x08]),
        reads(2),
        each(&write_data(0, [5, 0, 3, 2])),
        each(&data),
        vec![status(1)],
        reads(8),
        vec![status(1), send(&read_data(0, [5, 0, 3, 2], 3))],
    ];
    list.add_none("sheet-at-every-step-of-a-save", &paused(calls.concat()));
}

/// A whole read. Of five data bytes four are taken, and one is lost to three status
/// reads.
fn add_read(list: &mut List) {
    let step = |place: usize| match place % 5 {
        4 => vec![status(1); 3],
        _ => reads(1),
    };
    let calls = [
        vec![A],
        each(&read_data(0, [0, 0, 9, 2], 9)),
        (0..512).flat_map(step).collect(),
        vec![status(2)],
        reads(8),
        vec![status(1)],
    ];
    let disk = image([track(0, 0, &[([0, 0, 9, 2], 512)])]);
    let name = "sheet-at-every-step-of-a-read";
    list.add(name, [disk, no_tracks()], &paused(calls.concat()));
}

/// What the two do not have: an index, a reply beside data and beside a write, a drive
/// without a disk, a disk change.
fn add_phases(list: &mut List) {
    let calls = [
        vec![Call::Ask, status(1), A],
        [0x0a, 0x4a].map(|first| send(&[first, 0])).to_vec(),
        reads(2),
        vec![send(&read_data(0, [0, 0, 1, 2], 9)), status(2)],
        vec![send(&write_data(0, [0, 0, 2, 2])), status(2)],
        vec![read(4_600), send(&[0xaa; 500]), NONE, send(&[0x55; 11])],
        vec![B, A, send(&[0x33]), Call::Ask, status(2), read(7)],
        vec![send(&[0x07, 0]), send(&[0x08]), status(1), status(1)],
    ];
    list.add_none("sheet-in-every-phase", &paused(calls.concat()));
}

/// Sheets made by noise, taken up, a disk put in, and commands behind them.
fn add_noise(list: &mut List) {
    for number in 0..SESSIONS {
        let mut noise = Noise::new(5_000 + number);
        let disk = traffic::disk(&mut noise);
        let calls = (0..SHEETS).flat_map(|place| taken_up(place, &mut noise));
        let calls: Vec<Call> = calls.collect();
        list.add(
            format!("sheet-by-noise-{number:02}"),
            [disk, no_tracks()],
            &calls,
        );
    }
}

/// A sheet, every other one of the version before.
fn taken_up(place: usize, noise: &mut Noise) -> Vec<Call> {
    let made = made(noise);
    let sheet = match place % 2 {
        0 => made.bytes(),
        _ => made.old_bytes(),
    };
    let mut calls = vec![Call::Resume(sheet), Call::Boxes, Call::Sheet, A];
    if noise.below(3) > 0 {
        calls.push(send(&rest(noise)));
    }
    for _ in 0..TURNS {
        calls.extend(traffic::turn(noise));
        if noise.below(3) == 0 {
            calls.push(Call::Sheet);
        }
    }
    calls
}

/// Bytes enough for most commands that were partly sent, and for some writes.
fn rest(noise: &mut Noise) -> Vec<u8> {
    let length = one_of(noise, [1, 3, 8, 30]);
    (0..length).map(|_| below(noise, 3)).collect()
}

/// A sheet of the Rust machine that may be.
fn made(noise: &mut Noise) -> Sheet {
    Sheet {
        motor: noise.below(2) == 0,
        cylinder: one_of(noise, [0, 0, 1, 2, 255]),
        seek: below(noise, 3),
        index: one_of(noise, [0, 1, 6, 300, 65_534, 65_535]),
        command: command(noise),
        reply: bytes(noise, 7),
        data: data(noise),
        lost: below(noise, 3),
        write: write(noise),
        ..Sheet::default()
    }
}

/// Up to so many bytes.
fn bytes(noise: &mut Noise, most: usize) -> Vec<u8> {
    let length = noise.below(most + 1);
    noise.take(length).collect()
}

fn command(noise: &mut Noise) -> Vec<u8> {
    let first = one_of(noise, [0x46, 0x4c, 0x45, 0x4d, 0x4a, 0x0f, 0x04, 0x03]);
    let mut command: Vec<u8> = [vec![first, 0], bytes(noise, 6)].concat();
    command.truncate(noise.below(9));
    while !sheet::is_partial(&command) {
        command.pop();
    }
    command
}

fn data(noise: &mut Noise) -> Vec<u8> {
    let most = one_of(noise, [0, 0, 3, 20, 200]);
    bytes(noise, most)
}

fn write(noise: &mut Noise) -> Option<Write> {
    if noise.below(2) == 0 {
        return None;
    }
    let [c, h, r, n] = traffic::id(noise);
    let id = SectorId { c, h, r, n };
    let most = one_of(noise, [0, id.len() - 1, id.len() - 1]);
    let mut held = bytes(noise, most);
    if noise.below(2) == 0 {
        held = noise.take(most).collect();
    }
    let c1 = one_of(noise, [0, 0, 4, 0xfc]);
    Some(Write { c1, id, held })
}
