//! The layout of a store, as docs/STORE.md has it.

use raze::disk::{Disk, Track};

use crate::capacities::{MOST_BYTES, MOST_SECTORS, MOST_TRACKS};
use crate::host::TABLE;

const TRACK: usize = 6;
const ROW: usize = 8;

/// The used part of the table of this disk, and that of its data.
pub fn laid(disk: &Disk) -> (Vec<u8>, Vec<u8>) {
    let mut table = vec![disk.tracks().len() as u8];
    let mut data = Vec::new();
    for track in disk.tracks() {
        lay_track(track, &mut table, &mut data);
    }
    (table, data)
}

fn lay_track(track: &Track, table: &mut Vec<u8>, data: &mut Vec<u8>) {
    table.extend([
        track.cylinder(),
        track.side(),
        track.sector_size(),
        track.gap3(),
        track.filler(),
        track.sectors().len() as u8,
    ]);
    for sector in track.sectors() {
        let id = &sector.id;
        table.extend([id.c, id.h, id.r, id.n, sector.st1.bits(), sector.st2.bits()]);
        table.extend((sector.data.len() as u16).to_le_bytes());
        data.extend(&sector.data);
    }
}

/// Whether a table and a data buffer of this length keep the layout.
pub fn keeps(table: &[u8], data: usize) -> bool {
    table.len() == TABLE
        && sums(table).is_some_and(|(sectors, bytes)| {
            sectors <= MOST_SECTORS && bytes <= MOST_BYTES.min(data)
        })
}

/// How many sectors and stored bytes the tracks of a table name; none where there
/// are too many tracks, or rows past its end.
fn sums(table: &[u8]) -> Option<(usize, usize)> {
    let tracks = usize::from(table[0]);
    if tracks > MOST_TRACKS {
        return None;
    }
    let (mut place, mut sectors, mut bytes) = (1, 0, 0);
    for _ in 0..tracks {
        let number = usize::from(*table.get(place + TRACK - 1)?);
        place += TRACK;
        let rows = table.get(place..place + number * ROW)?;
        let lengths = rows.chunks(ROW);
        bytes += lengths
            .map(|row| usize::from(u16::from_le_bytes([row[6], row[7]])))
            .sum::<usize>();
        place += number * ROW;
        sectors += number;
    }
    Some((sectors, bytes))
}

/// What stands at a place of a used table, in words.
pub fn at(table: &[u8], wanted: usize) -> String {
    const TRACKS: [&str; TRACK] = ["cylinder", "side", "size", "gap", "filler", "sectors"];
    const ROWS: [&str; ROW] = [
        "c",
        "h",
        "r",
        "n",
        "st1",
        "st2",
        "low length",
        "high length",
    ];
    if wanted == 0 {
        return "number of tracks".to_owned();
    }
    let mut place = 1;
    for track in 0..table[0] {
        let Some(&number) = table.get(place + TRACK - 1) else {
            break;
        };
        if wanted < place + TRACK {
            return format!("{} of track {track}", TRACKS[wanted - place]);
        }
        place += TRACK;
        if wanted < place + usize::from(number) * ROW {
            let (sector, field) = ((wanted - place) / ROW, (wanted - place) % ROW);
            return format!("{} of sector {sector} of track {track}", ROWS[field]);
        }
        place += usize::from(number) * ROW;
    }
    "behind the used part".to_owned()
}
