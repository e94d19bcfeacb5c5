//! Sessions that pause, and sheets made by chance that are taken up.

use super::{commands, turns};
use crate::chance::Chance;
use crate::host::SHEET;
use crate::pair::Pair;
use crate::sheet::Sheet;
use crate::sheets;
use crate::watch::{Checked, Difference};

/// Now and then the session pauses here.
pub fn perhaps(pair: &mut Pair, chance: &mut Chance) -> Checked {
    if chance.once_in(200) {
        return pair.pause(chance);
    }
    Ok(())
}

/// A turn of a session that takes up several sheets.
pub fn turn(pair: &mut Pair, chance: &mut Chance) -> Checked {
    match chance.below(16) {
        0 => take_up(pair, chance),
        1..=3 => damaged(pair, chance),
        _ => turns::traffic(pair, chance),
    }
}

/// Reads a damaged sheet.
pub fn damaged(pair: &mut Pair, chance: &mut Chance) -> Checked {
    let sheet = made(pair, chance);
    let bytes = sheets::damaged(&sheet, chance);
    resume(pair, &bytes, chance)
}

/// Takes up a sheet made by chance.
pub fn take_up(pair: &mut Pair, chance: &mut Chance) -> Checked {
    let bytes = sheets::bytes(&made(pair, chance), chance);
    resume(pair, &bytes, chance)
}

/// Takes up the longest sheet, and pauses with it.
pub fn longest(pair: &mut Pair, chance: &mut Chance) -> Checked {
    let bytes = sheets::longest(chance).bytes();
    if bytes.len() != SHEET {
        return Err(Difference::new("the longest sheet", SHEET, bytes.len()));
    }
    resume(pair, &bytes, chance)?;
    pair.pause(chance)
}

/// A sheet made by chance, whose write mostly names a sector of the disk in the drive.
fn made(pair: &Pair, chance: &mut Chance) -> Sheet {
    let (cylinder, c1, id) = commands::somewhere(pair, chance);
    sheets::any(cylinder, c1, id, pair.transfer.lent(), chance)
}

/// Reads the bytes as a sheet. Where they are one, a disk is mostly put in.
fn resume(pair: &mut Pair, bytes: &[u8], chance: &mut Chance) -> Checked {
    let slot = pair.slot();
    if pair.resume(bytes, chance)? != 0 || chance.once_in(6) {
        return Ok(());
    }
    pair.put(slot.or(Some(0)), 1)
}
