//! Bytes that are sent by chance, with reads, polls and disk changes between.

use super::{A, B, FRESH, List, NONE, image, read, send, status, track};
use crate::noise::Noise;
use crate::session::Call;

/// How many sessions, and how many calls each has.
const SESSIONS: u32 = 16;
const CALLS: usize = 300;

/// First bytes of commands that look at the disk, so that noise meets them often.
const FIRSTS: [u8; 8] = [0x46, 0x4c, 0x45, 0x4a, 0x4d, 0x0f, 0x07, 0x08];

/// Adds sessions of noise.
pub fn add(list: &mut List) {
    for number in 0..SESSIONS {
        let mut noise = Noise::new(9_000 + number);
        let calls: Vec<Call> = (0..CALLS).map(|_| call(&mut noise)).collect();
        let disks = if number % 2 == 0 {
            [FRESH, small()]
        } else {
            [small(), FRESH]
        };
        list.add_two(format!("noise-{number:02}"), disks, &calls);
    }
}

/// A disk on which small numbers are often found.
fn small() -> Vec<u8> {
    let sectors: Vec<_> = (0..4).map(|r| ([0, 0, r, 0], 40)).collect();
    image([track(0, 0, &sectors), track(0, 1, &sectors)])
}

fn call(noise: &mut Noise) -> Call {
    match noise.below(20) {
        0 => A,
        1 => B,
        2 => NONE,
        3 => Call::Motor(noise.below(2) == 0),
        4..=6 => status(noise.below(6) as u16),
        7..=10 => read(noise.below(30) as u16),
        11 => Call::Boxes,
        12 => Call::Ask,
        _ => {
            let length = 1 + noise.below(14);
            send(&(0..length).map(|_| byte(noise)).collect::<Vec<u8>>())
        }
    }
}

/// A byte: small, a first byte, or any.
fn byte(noise: &mut Noise) -> u8 {
    match noise.below(5) {
        0..=2 => noise.below(4) as u8,
        3 => FIRSTS[noise.below(FIRSTS.len())],
        _ => noise.below(256) as u8,
    }
}
