//! The IDs that a Format of the data-sheet machine takes.

use super::commands;
use crate::chance::Chance;
use crate::datasheet::Format;
use crate::pair::Pair;
use crate::watch::Checked;

/// Sends IDs by chance, if a Format waits for some; something may come between, and they
/// may be too few.
pub fn perhaps(pair: &mut Pair, chance: &mut Chance) -> Checked {
    let cylinder = pair.rust().current_track();
    match pair.rust().format().cloned() {
        None => Ok(()),
        Some(format) => {
            let bytes = any(&format, cylinder, chance);
            commands::phase(pair, &bytes, chance)
        }
    }
}

/// Sends IDs with the numbers from 1 on, if a Format waits for some.
pub fn usual(pair: &mut Pair, chance: &mut Chance) -> Checked {
    let cylinder = pair.rust().current_track();
    if let Some(format) = pair.rust().format().cloned() {
        let bytes = numbered(&format, cylinder, |place| place as u8 + 1);
        commands::send_all(pair, &bytes, chance)?;
    }
    Ok(())
}

/// What the Format still takes, if its IDs are cylinder, head, the number by their place,
/// and n.
fn numbered(format: &Format, cylinder: u8, number: impl Fn(usize) -> u8) -> Vec<u8> {
    let ids = (0..usize::from(format.count))
        .flat_map(|place| [cylinder, format.head(), number(place), format.n]);
    ids.skip(format.ids.len()).collect()
}

/// IDs in a row, all equal, of few numbers, with another N, or of any bytes.
fn any(format: &Format, cylinder: u8, chance: &mut Chance) -> Vec<u8> {
    let byte = chance.byte();
    let first: u8 = chance.of(&[0, 1, 1, 0x41, 0xc1, byte]);
    let row = |place: usize| first.wrapping_add(place as u8);
    match chance.below(8) {
        0 => numbered(format, cylinder, |_| first),
        1 => numbered(format, cylinder, |place| row(place % 3)),
        2 => {
            let n = chance.of(&[format.n ^ 1, 0, 3, 255]);
            let other = Format {
                n,
                ..format.clone()
            };
            numbered(&other, cylinder, row)
        }
        3 => numbered(format, chance.byte(), row),
        4 => chance.bytes(format.left()),
        _ => numbered(format, cylinder, row),
    }
}
