//! Whole commands chosen by fixed noise, mixed with reads, polls and disk changes;
//! some are broken off, so that what follows is taken for something else.

use super::{A, B, Id, List, NONE, image, read, send, send_times, status};
use crate::dsk::{Sector, Track};
use crate::noise::Noise;
use crate::session::Call;

/// How many sessions, and how many turns each has.
const SESSIONS: u32 = 36;
const TURNS: usize = 250;

/// Adds sessions of commands.
pub fn add(list: &mut List) {
    for number in 0..SESSIONS {
        let mut noise = Noise::new(7_000 + number);
        let disks = [disk(&mut noise), disk(&mut noise)];
        let calls: Vec<Call> = (0..TURNS).flat_map(|_| turn(&mut noise)).collect();
        list.add_two(format!("traffic-{number:02}"), disks, &calls);
    }
}

pub(super) fn below(noise: &mut Noise, end: u8) -> u8 {
    noise.below(end.into()) as u8
}

pub(super) fn one_of<T: Copy, const N: usize>(noise: &mut Noise, choices: [T; N]) -> T {
    choices[noise.below(N)]
}

/// A disk of a few small tracks, equal ones among them.
pub(super) fn disk(noise: &mut Noise) -> Vec<u8> {
    let number = 3 + noise.below(3);
    let tracks: Vec<Track> = (0..number).map(|_| track(noise)).collect();
    image(tracks)
}

fn track(noise: &mut Noise) -> Track {
    let (cylinder, side) = (below(noise, 3), one_of(noise, [0, 0, 1, 1, 2]));
    let number = below(noise, 5);
    let sectors = (0..number).map(|_| sector(noise, cylinder, side));
    Track::new(cylinder, side, sectors.collect())
}

fn sector(noise: &mut Noise, cylinder: u8, side: u8) -> Sector {
    let id = [
        cylinder,
        side,
        below(noise, 5),
        one_of(noise, [0, 0, 0, 1, 4]),
    ];
    let size = 128 << (id[3] & 3);
    let length = one_of(noise, [size, size, size, 2 * size, 9, 0]);
    let [st1, st2] = [(); 2].map(|()| one_of(noise, [0, 0, 0x20, 0x40, 0xff]));
    Sector::stored(id, length).status(st1, st2)
}

/// One turn: a call, or a command.
pub(super) fn turn(noise: &mut Noise) -> Vec<Call> {
    match noise.below(100) {
        0..=6 => vec![change(noise)],
        7..=9 => vec![Call::Motor(noise.below(2) == 0)],
        10..=19 => vec![status(one_of(noise, [1, 1, 2, 3, 5, 40]))],
        20..=35 => vec![read(one_of(noise, [1, 2, 7, 7, 20, 135, 300]))],
        36..=41 => vec![Call::Boxes],
        42 => vec![Call::Ask],
        43..=54 => write(noise),
        _ => vec![command(noise)],
    }
}

fn change(noise: &mut Noise) -> Call {
    [A, A, B, B, NONE][noise.below(5)].clone()
}

/// The second byte of a command: mostly drive 0.
fn unit(noise: &mut Noise) -> u8 {
    match noise.below(8) {
        0 => below(noise, 8),
        1 => below(noise, 255),
        2..=4 => 4,
        _ => 0,
    }
}

/// The ID of a sector that mostly may be there.
pub(super) fn id(noise: &mut Noise) -> Id {
    let n = one_of(noise, [0, 0, 0, 0, 1, 4]);
    [below(noise, 3), below(noise, 2), below(noise, 5), n]
}

/// A command, now and then broken off.
fn command(noise: &mut Noise) -> Call {
    let bytes = command_bytes(noise);
    if noise.below(25) == 0 {
        return send(&bytes[..1 + noise.below(bytes.len())]);
    }
    send(&bytes)
}

fn command_bytes(noise: &mut Noise) -> Vec<u8> {
    let c1 = unit(noise);
    match noise.below(40) {
        0..=13 => {
            let [c, h, r, n] = id(noise);
            let first = one_of(noise, [0x46, 0x46, 0x06, 0x66, 0x4c, 0xcc]);
            vec![first, c1, c, h, r, n, below(noise, 6), 0x2a, 0xff]
        }
        14..=19 => vec![one_of(noise, [0x0a, 0x4a]), c1],
        20..=22 => {
            let n = one_of(noise, [0, 0, 1, 4, 255]);
            let [count, gap, filler] = [6, 255, 255].map(|end| below(noise, end));
            vec![one_of(noise, [0x0d, 0x4d]), c1, n, count, gap, filler]
        }
        23..=28 => vec![0x0f, c1, below(noise, 3)],
        29 | 30 => vec![0x07, c1],
        31..=34 => vec![0x08],
        35 => vec![0x04, c1],
        36 => vec![0x03, below(noise, 255), below(noise, 255)],
        37 => vec![one_of(noise, [0x10, 0x90])],
        38 => [0x49, c1, 0, 0, 1, 0, 1, 0x2a, 0xff].to_vec(),
        _ => vec![below(noise, 255)],
    }
}

/// A write with its data, in two parts; something may come between, and bytes may
/// be too few.
fn write(noise: &mut Noise) -> Vec<Call> {
    let [c, h, r, n] = id(noise);
    let c1 = unit(noise);
    let first = one_of(noise, [0x45, 0x45, 0x05, 0x85]);
    let command = send(&[first, c1, c, h, r, n, below(noise, 9), 0x2a, 0xff]);
    let data: Vec<u8> = (0..16).map(|_| below(noise, 255)).collect();
    let size = 8 << (n & 3);
    let half = noise.below(size) as u16;
    let mut rest = size as u16 - half;
    if noise.below(10) == 0 {
        rest -= noise.below(rest.into()) as u16;
    }
    let mut calls = vec![command, send_times(half, &data)];
    match noise.below(5) {
        0 => calls.push(change(noise)),
        1 => calls.push(status(2)),
        2 => calls.push(read(3)),
        _ => {}
    }
    calls.push(send_times(rest, &data));
    calls
}
