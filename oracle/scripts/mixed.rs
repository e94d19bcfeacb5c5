//! Rows of all operations on a small disk, chosen by fixed noise.

use super::{List, image, track};
use crate::noise::Noise;
use crate::script::{Operation, Place};

/// How many operations a script has.
const OPERATIONS: usize = 30;

/// Adds scripts of operations that the noise chooses.
pub fn add(list: &mut List) {
    for number in 0..8 {
        let mut noise = Noise::new(number);
        let tracks = [0; 5].map(|_| track(place(&mut noise), 2 + below(&mut noise, 3)));
        let operations = [0; OPERATIONS].map(|_| operation(&mut noise));
        list.add(format!("mixed-{number}"), image(tracks), &operations);
    }
}

fn below(noise: &mut Noise, end: u8) -> u8 {
    noise.below(end.into()) as u8
}

fn place(noise: &mut Noise) -> Place {
    [below(noise, 2), below(noise, 3)]
}

fn operation(noise: &mut Noise) -> Operation {
    let kind = below(noise, 9);
    let place = place(noise);
    let [side, cylinder] = place;
    let r = 1 + below(noise, 3);
    let id = [cylinder, side, r, 0];
    match kind {
        0 | 1 => Operation::Format {
            place,
            n: below(noise, 5) & 4,
            count: below(noise, 6),
            gap: below(noise, 255),
            filler: below(noise, 255),
        },
        2..=4 => Operation::Save {
            place,
            id,
            length: noise.below(300) as u16,
            seed: below(noise, 255),
        },
        5..=7 => Operation::Read {
            place,
            id,
            eot: below(noise, 6),
            room: noise.below(800) as u32,
        },
        _ => Operation::Id {
            place,
            index: noise.below(65_536) as u16,
        },
    }
}
