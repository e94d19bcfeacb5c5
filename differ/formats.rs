//! The data-sheet machine before the cases of a run: Formats by their IDs, invalid commands
//! and Sense Interrupt Status. What the Rust does not have is also told by hand.

use crate::by_hand::{refused, same, sent, with};
use crate::chance::Chance;
use crate::datasheet::Machine;
use crate::dsk::{Sector, Track};
use crate::pair::Pair;
use crate::watch::{Checked, Watch, told};

/// A case, which plays with two disks that have a track of two sectors at cylinder 0.
type Play = fn(&mut Pair) -> Checked;

/// Format of side 0 with nine sectors of 512 bytes, and its reply.
const NINE: [u8; 6] = [0x4d, 0, 2, 9, 0x52, 0xe5];
const REPLY: [u8; 7] = [0, 0, 0, 0, 0, 0, 2];

/// Runs them all, to the first difference. Answers whether there was none.
pub fn run(watch: &mut Watch) -> bool {
    let plays: [(&str, Play); 9] = [
        ("nine sectors C1 to C9", nine),
        ("IDs as they are sent", as_sent),
        ("beside data and a reply", beside),
        ("the disk is out", out),
        ("another disk", another),
        ("without IDs", without_ids),
        ("invalid commands", invalid),
        ("Sense Interrupt Status", interrupts),
        ("refusals 2 and 8", rooms),
    ];
    let said = |name: &str, done| told(format_args!("formatted {name}"), done);
    plays
        .iter()
        .all(|(name, play)| said(name, on_two(*play, watch)))
        && said("refusal 6", full(tracks_204(), 204, 6, watch))
        && said("refusal 7", full(sectors_2048(), 9, 7, watch))
        && said("the Rust machine", rust_machine(watch))
}

/// Plays on the data-sheet machine with two equal disks.
fn on_two(play: Play, watch: &mut Watch) -> Checked {
    let disk = [two_sectors()];
    with(Machine::DataSheet, &[&disk, &disk], watch, play)
}

fn two_sectors() -> Track {
    let sectors = [1, 2].map(|r| Sector::stored([0, 0, r, 0], 128));
    Track::new(0, 0, sectors.to_vec())
}

/// The IDs of nine sectors, numbers C1 to C9.
fn nine_ids() -> Vec<u8> {
    (0xc1..=0xc9).flat_map(|r| [0, 0, r, 2]).collect()
}

/// Reads the status, which is told.
fn status(pair: &mut Pair, told: u8) -> Checked {
    let seen = pair.status()?;
    same("status, by hand", told, seen)
}

/// Reads all of the reply, which is told.
fn reply(pair: &mut Pair, told: &[u8]) -> Checked {
    let (_, length) = pair.rust().unread();
    let bytes = (0..length).map(|_| pair.read());
    let bytes = bytes.collect::<Checked<Vec<u8>>>()?;
    same("reply, by hand", told, &bytes)
}

/// Compares cylinder 0 of side 0 of the disk in the drive: the lengths of its sectors.
fn lengths(pair: &Pair, told: &[usize]) -> Checked {
    let disk = pair.rust().disk();
    let track = disk.and_then(|disk| disk.get_track(0, 0));
    let sectors = track.map_or(&[][..], |track| track.sectors());
    let seen: Vec<usize> = sectors.iter().map(|sector| sector.data.len()).collect();
    same("sectors, by hand", told, &seen)
}

/// C1 to C9: formatted, with a pause at every byte, found, written and read.
fn nine(pair: &mut Pair) -> Checked {
    let mut chance = Chance::new(9);
    sent(pair, &NINE)?;
    for b in nine_ids() {
        status(pair, 0xb0)?;
        pair.pause(&mut chance)?;
        sent(pair, &[b])?;
    }
    status(pair, 0xd0)?;
    reply(pair, &REPLY)?;
    lengths(pair, &[512; 9])?;
    for r in 0xc0..=0xca {
        pair.lookup([0, 0, 0, 0, r, 2])?;
    }
    sent(pair, &[0x45, 0, 0, 0, 0xc5, 2, 0xc5, 0x2a, 0xff])?;
    sent(pair, &[0x5a; 512])?;
    sent(pair, &[0x46, 0, 0, 0, 0xc1, 2, 0xc9, 0x2a, 0xff])?;
    same("data, by hand", 9 * 512, pair.rust().unread().0)
}

/// Equal IDs, and an N that is not the command's: the lengths go by the command.
fn as_sent(pair: &mut Pair) -> Checked {
    sent(pair, &[0x4d, 0, 1, 3, 0x52, 0xaa])?;
    sent(pair, &[7, 8, 9, 3, 7, 8, 9, 3, 255, 255, 255, 255])?;
    lengths(pair, &[256; 3])?;
    pair.lookup([0, 0, 7, 8, 9, 3])?;
    pair.lookup([0, 0, 7, 8, 9, 1])?;
    sent(pair, &[0x46, 0, 7, 8, 9, 3, 9, 0x2a, 0xff])?;
    same("data, by hand", 256, pair.rust().unread().0)
}

/// No poll loses a byte while IDs are taken, and the old reply is there until the last.
fn beside(pair: &mut Pair) -> Checked {
    sent(pair, &[0x46, 0, 0, 0, 1, 0, 2, 0x2a, 0xff])?;
    sent(pair, &NINE)?;
    for b in nine_ids() {
        (0..5).try_for_each(|_| status(pair, 0xb0))?;
        same("unread, by hand", (256, 7), pair.rust().unread())?;
        sent(pair, &[b])?;
    }
    status(pair, 0xf0)?;
    (0..256).try_for_each(|_| pair.read().map(|_| ()))?;
    reply(pair, &REPLY)
}

/// Sends a Format and all IDs but their last byte; then the disk is changed, and the byte
/// is taken.
fn changed(pair: &mut Pair, slot: Option<usize>) -> Checked {
    sent(pair, &NINE)?;
    sent(pair, &nine_ids()[..35])?;
    pair.put(slot, 1)
}

/// With no disk at the last byte nothing is laid, and the reply is the same.
fn out(pair: &mut Pair) -> Checked {
    changed(pair, None)?;
    status(pair, 0xb0)?;
    sent(pair, &[2])?;
    reply(pair, &REPLY)?;
    pair.put(Some(0), 1)?;
    lengths(pair, &[128; 2])
}

/// The track is laid on the disk that is in at the last byte.
fn another(pair: &mut Pair) -> Checked {
    changed(pair, Some(1))?;
    sent(pair, &[2])?;
    reply(pair, &REPLY)?;
    lengths(pair, &[512; 9])?;
    pair.put(Some(0), 1)?;
    lengths(pair, &[128; 2])
}

/// Another drive, no sectors, and no disk: the reply is there at once.
fn without_ids(pair: &mut Pair) -> Checked {
    let formats = [
        (5, 9, [0xcd, 0, 0, 0, 1, 0, 2], [128; 2].as_slice()),
        (0, 0, REPLY, &[]),
    ];
    for (c1, count, told, left) in formats {
        sent(pair, &[0x4d, c1, 2, count, 0x52, 0xe5])?;
        status(pair, 0xd0)?;
        reply(pair, &told)?;
        lengths(pair, left)?;
    }
    pair.put(None, 0)?;
    sent(pair, &NINE)?;
    reply(pair, &[0xc8, 0, 0, 0, 0, 0, 2])
}

/// Each first byte, with a reply unread: the invalid ones are 187.
fn invalid(pair: &mut Pair) -> Checked {
    let mut number = 0;
    for first in 0..=255 {
        sent(pair, &[0x4a, 0, first])?;
        let boxes = pair.rust().boxes();
        let alone = first != 0x08 && first & 0x1f != 0x10 && boxes.reply == [0x80];
        number += usize::from(alone);
        while !pair.rust().boxes().command.is_empty() {
            sent(pair, &[1])?;
        }
    }
    same("invalid first bytes, by hand", 187, number)
}

/// A seek is told once; without one 0x80 comes alone.
fn interrupts(pair: &mut Pair) -> Checked {
    let steps: [(&[u8], &[u8]); 5] = [
        (&[0x08], &[0x80]),
        (&[0x0f, 0, 7, 0x08], &[0x20, 7]),
        (&[0x08], &[0x80]),
        (&[0x07, 0, 0x08], &[0x20, 0]),
        (&[0x0f, 1, 7, 0x08], &[0x80]),
    ];
    for (bytes, told) in steps {
        sent(pair, bytes)?;
        reply(pair, told)?;
    }
    Ok(())
}

/// The store is looked at by the last byte alone, which may be sent again: 2, then 8.
fn rooms(pair: &mut Pair) -> Checked {
    let broken = [0; 5];
    let room = 9 * 512;
    pair.store().data.lend(room - 1);
    for b in [&NINE, &nine_ids()[..35]].concat() {
        let refusal = pair.send_with(b, Some(&broken))?;
        same("a broken table, by hand", 0, refusal)?;
    }
    let refusal = pair.send_with(2, Some(&broken))?;
    same("a broken table, by hand", 2, refusal)?;
    refused(pair, 2, 8)?;
    status(pair, 0xb0)?;
    pair.store().data.lend(room);
    sent(pair, &[2])?;
    reply(pair, &REPLY)?;
    lengths(pair, &[512; 9])
}

/// As many tracks as a disk may have, without sectors.
fn tracks_204() -> Vec<Track> {
    (0..204).map(|c| Track::new(c, 0, Vec::new())).collect()
}

/// As many sectors as a disk may have, without bytes.
fn sectors_2048() -> Vec<Track> {
    let track = |(c, count)| {
        let sector = Sector::stored([c, 0, 1, 0], 0);
        Track::new(c, 0, vec![sector; count])
    };
    let counts = [255, 255, 255, 255, 255, 255, 255, 255, 8];
    (1..).zip(counts).map(track).collect()
}

/// A Format at a cylinder that is one too many, which is refused at its last ID byte; and
/// the same byte with the disk out.
fn full(disk: Vec<Track>, cylinder: u8, number: u8, watch: &mut Watch) -> Checked {
    let sectors = if number == 7 { 9 } else { 1 };
    let ids: Vec<u8> = (0..sectors).flat_map(|r| [cylinder, 0, r, 0]).collect();
    let (&last, before) = ids.split_last().expect("there is an ID");
    with(Machine::DataSheet, &[&disk], watch, |pair| {
        sent(pair, &[0x0f, 0, cylinder])?;
        sent(pair, &[0x4d, 0, 0, sectors, 0x52, 0xe5])?;
        sent(pair, before)?;
        refused(pair, last, number)?;
        pair.put(None, 0)?;
        sent(pair, &[last])?;
        reply(pair, &[0; 7])
    })
}

/// The same on the Rust machine: no IDs are taken, an invalid byte replies nothing, and
/// Sense Interrupt Status has the cylinder.
fn rust_machine(watch: &mut Watch) -> Checked {
    with(Machine::Rust, &[&[two_sectors()]], watch, |pair| {
        sent(pair, &NINE)?;
        status(pair, 0xd0)?;
        sent(pair, &[0x00])?;
        reply(pair, &REPLY)?;
        lengths(pair, &[512; 9])?;
        sent(pair, &[0x08])?;
        reply(pair, &[0x80, 0])
    })
}
