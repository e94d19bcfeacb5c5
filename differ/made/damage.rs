//! Damage to images: cuts, changed bytes, wrong signatures, and plain noise.

use crate::chance::Chance;
use crate::dsk::{FIRST, Plan};

/// The image of the plan, in about half the cases damaged.
pub fn any(plan: &Plan, chance: &mut Chance) -> Vec<u8> {
    let mut image = plan.image();
    match chance.below(40) {
        0..=6 => image.truncate(boundary(plan, chance)),
        7 | 8 => image.truncate(chance.below(image.len() + 1)),
        9..=14 => change(&mut image, &plan.telling(), chance),
        15 | 16 => {
            let all: Vec<usize> = (0..image.len()).collect();
            change(&mut image, &all, chance);
        }
        17 => change(&mut image, &[0, 3, 7, 8, 9, 11], chance),
        18 => {
            let places = [0, 4, 9, 10, 11].map(|at| FIRST + at);
            change(&mut image, &places, chance);
        }
        19 => {
            let more = chance.below(700);
            image.extend(chance.bytes(more));
        }
        _ => {}
    }
    image
}

/// A length at or beside a boundary.
fn boundary(plan: &Plan, chance: &mut Chance) -> usize {
    let at = chance.of(&plan.boundaries());
    (at + chance.below(3)).saturating_sub(1)
}

/// Changes one to three bytes at these places, where the image has them.
fn change(image: &mut [u8], places: &[usize], chance: &mut Chance) {
    for _ in 0..=chance.below(3) {
        if let Some(byte) = image.get_mut(chance.of(places)) {
            *byte = match chance.below(4) {
                0 => byte.wrapping_add(1),
                1 => byte.wrapping_sub(1),
                2 => 0,
                _ => chance.byte(),
            };
        }
    }
}

/// Noise, now and then behind a good signature.
pub fn noise(chance: &mut Chance) -> Vec<u8> {
    let length = chance.below(700);
    let mut image = chance.bytes(length);
    let signature = chance.of::<&[u8]>(&[b"", b"EXTENDED CPC", b"MV - CPC", b"MV - CPCEMU D"]);
    let length = signature.len().min(image.len());
    image[..length].copy_from_slice(&signature[..length]);
    for at in [0x30, 0x31] {
        if let Some(byte) = image.get_mut(at) {
            *byte %= 4;
        }
    }
    image
}
