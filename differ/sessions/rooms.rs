//! How much of the buffers is lent.

use crate::capacities::Totals;
use crate::chance::Chance;
use crate::pair::Pair;

/// A length of the transfer buffer: small, usual, or over the largest room.
pub fn transfer(chance: &mut Chance) -> usize {
    match chance.below(12) {
        0 => chance.below(600),
        1 => chance.of(&[0, 127, 128, 511, 512, 513, 1_024]),
        2 => 65_535 + chance.below(3),
        3 => 70_000,
        _ => 4_096 + chance.below(8_000),
    }
}

/// How many bytes a data buffer has to spare.
pub fn spare(chance: &mut Chance) -> usize {
    chance.of(&[0, 1, 127, 128, 512, 1_000, 5_000, 20_000, 20_000])
}

/// Lends another length of the data or of the transfer buffer: any, or just what
/// is in use, or one byte less, or all.
pub fn change(pair: &mut Pair, chance: &mut Chance) {
    let of_data = chance.once_in(2);
    let used = if of_data {
        let disk = pair.rust().disk();
        disk.map_or(0, |disk| Totals::of(disk).bytes)
    } else {
        pair.filled()
    };
    let (name, buffer) = if of_data {
        ("data", &mut pair.store().data)
    } else {
        ("transfer", &mut pair.transfer)
    };
    let length = match chance.below(6) {
        0 => chance.below(buffer.length() + 1),
        1 => used.saturating_sub(1),
        2 => used + chance.below(600),
        3 => used,
        _ => buffer.length(),
    };
    buffer.lend(length);
    let lent = buffer.lent();
    pair.say(format_args!("lend {lent} bytes of {name} from now on"));
}

/// Lends both whole.
pub fn whole(pair: &mut Pair) {
    pair.transfer.lend(usize::MAX);
    pair.store().data.lend(usize::MAX);
    pair.say("lend data and transfer whole from now on");
}
