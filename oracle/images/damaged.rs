//! Good images with one or two bytes changed, and some of them cut as well. The
//! name of each tells what was done to which image.

use super::List;
use crate::dsk::{Plan, Sector, Track};
use crate::noise::Noise;

const COPIES: usize = 120;

/// Adds the damaged copies.
pub fn add(list: &mut List) {
    let plans = plans();
    let mut noise = Noise::new(765);
    for (number, (kind, plan)) in (1..=COPIES).zip(plans.iter().cycle()) {
        let mut name = format!("damaged-{number:03}-{kind}");
        let mut image = plan.image();
        for _ in 0..=noise.below(2) {
            let at = place(&mut noise, plan, image.len());
            image[at] = other(&mut noise, image[at]);
            name += &format!("-at-{at:04}-now-{:03}", image[at]);
        }
        if noise.below(6) == 0 {
            image.truncate(image.len() / 2 + noise.below(image.len() / 2));
            name += &format!("-cut-at-{:04}", image.len());
        }
        list.add(name, image);
    }
}

/// A place to change: mostly one of the bytes that a reader goes by.
fn place(noise: &mut Noise, plan: &Plan, length: usize) -> usize {
    if noise.below(8) == 0 {
        return noise.below(length);
    }
    let places = plan.telling();
    places[noise.below(places.len())]
}

/// Another byte: one more, one less, or any.
fn other(noise: &mut Noise, byte: u8) -> u8 {
    match noise.below(3) {
        0 => byte.wrapping_add(1),
        1 => byte.wrapping_sub(1),
        _ => byte.wrapping_add(1 + noise.below(255) as u8),
    }
}

fn plans() -> Vec<(&'static str, Plan)> {
    vec![
        ("extended-one-track", extended_one_track()),
        ("normal-one-track", normal_one_track()),
        ("extended-two-sides", extended_two_sides()),
        ("normal-two-tracks", normal_two_tracks()),
        ("extended-overlap", extended_overlap()),
        ("normal-one-place", normal_one_place()),
    ]
}

fn extended_one_track() -> Plan {
    let sectors = [
        Sector::stored([0, 0, 1, 0], 128),
        Sector::stored([0, 0, 2, 0], 0),
        Sector::stored([0, 0, 3, 1], 40).status(32, 32),
    ];
    Plan::extended(1, 1, &[2]).track(0x100, Track::new(0, 0, sectors.to_vec()))
}

fn normal_one_track() -> Plan {
    let ids = [[0, 0, 1, 0], [0, 0, 2, 1]];
    let track = Track::new(0, 0, ids.map(Sector::sized).to_vec());
    Plan::normal(1, 1, 0x280).track(0x100, track)
}

fn extended_two_sides() -> Plan {
    let track = |cylinder, side, length| {
        let sector = Sector::stored([cylinder, side, 1, 0], length);
        Track::new(cylinder, side, vec![sector])
    };
    Plan::extended(2, 2, &[2, 0, 2, 2])
        .track(0x100, track(0, 0, 100))
        .track(0x300, track(1, 0, 50))
        .track(0x500, track(1, 1, 25))
}

fn normal_two_tracks() -> Plan {
    let track = |cylinder| {
        let ids = [[cylinder, 0, 1, 0]];
        Track::new(cylinder, 0, ids.map(Sector::sized).to_vec())
    };
    Plan::normal(2, 1, 0x180)
        .track(0x100, track(0))
        .track(0x280, track(1))
}

fn extended_overlap() -> Plan {
    let track = |cylinder, length| {
        let ids = [[cylinder, 0, 1, 0], [cylinder, 0, 2, 0]];
        let sectors = ids.map(|id| Sector::stored(id, length));
        Track::new(cylinder, 0, sectors.to_vec())
    };
    Plan::extended(3, 1, &[1, 1, 1])
        .track(0x100, track(0, 200))
        .track(0x200, track(1, 100))
        .track(0x300, track(2, 50))
}

fn normal_one_place() -> Plan {
    let ids = [[0, 0, 1, 0], [0, 0, 2, 0]];
    let track = Track::new(0, 0, ids.map(Sector::sized).to_vec());
    Plan::normal(3, 2, 0).track(0x100, track)
}
