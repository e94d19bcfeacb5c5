//! Plans of good images by chance. Good ones load, unless they are beyond the
//! capacities; what they hold may still be strange.

use crate::chance::Chance;
use crate::dsk::{FIRST, Plan, Sector, Track};

/// Any plan.
pub fn any(chance: &mut Chance) -> Plan {
    match chance.below(100) {
        0 => usual(true),
        1 => usual(false),
        2 => {
            let sides = 1 + chance.small(2);
            let number = (196 + chance.small(20)) / sides;
            headers(number, sides, chance)
        }
        3 => many_rows(chance),
        4..=12 => long_list(chance),
        13..=17 => one_place(chance),
        18 if chance.once_in(4) => over_twice(chance),
        19 if chance.once_in(2) => long_track(chance),
        _ => small(chance),
    }
}

/// A few tracks, extended or normal.
pub fn small(chance: &mut Chance) -> Plan {
    let sides = chance.of(&[1, 1, 1, 2, 2, 3, 0]);
    let number = chance.small(5);
    if chance.once_in(3) {
        return normal(number, sides, chance);
    }
    let mut table = Vec::new();
    let mut tracks = Vec::new();
    let mut place = FIRST;
    for slot in 0..number * sides {
        if chance.once_in(7) {
            table.push(0);
            continue;
        }
        let track = track(slot, sides, chance, stored);
        let blocks = blocks(&track, chance);
        tracks.push((place, track));
        table.push(blocks);
        place += usize::from(blocks) * 0x100;
    }
    let plan = Plan::extended(number, sides, &table);
    let place = |plan: Plan, (place, track)| plan.track(place, track);
    tracks.into_iter().fold(plan, place)
}

/// How many blocks of 256 bytes the track has in the table: mostly what it needs.
fn blocks(track: &Track, chance: &mut Chance) -> u8 {
    let needed = track.blocks().min(250) as u8;
    match chance.below(12) {
        0 => 1 + chance.small(needed),
        1 => needed + chance.small(4),
        _ => needed,
    }
}

fn normal(number: u8, sides: u8, chance: &mut Chance) -> Plan {
    let tracks: Vec<Track> = (0..number * sides)
        .map(|slot| track(slot, sides, chance, sized))
        .collect();
    let ends = tracks.iter().map(|track| {
        let image = Plan::of([track.clone()]).image();
        image.len() - FIRST
    });
    let most = ends.max().unwrap_or(0x100);
    let step = match chance.below(8) {
        0 => 0x18 + chance.below(most),
        1 => most + chance.below(300),
        _ => most,
    };
    Plan::normal(number, sides, step as u16).row(step, tracks)
}

/// A track for a place in the table: mostly with the cylinder and side that
/// belong there, and mostly each number once.
fn track(
    slot: u8,
    sides: u8,
    chance: &mut Chance,
    make: fn([u8; 4], &mut Chance) -> Sector,
) -> Track {
    let (mut cylinder, mut side) = (slot / sides, slot % sides);
    match chance.below(16) {
        0 => cylinder = chance.small(3),
        1 => side = chance.of(&[0, 1, 2, 255]),
        2 => cylinder = chance.byte(),
        _ => {}
    }
    let number = chance.small(8);
    let own = |chance: &mut Chance| chance.once_in(20);
    let ids = (1..=number)
        .map(|r| {
            let c = if own(chance) {
                chance.small(3)
            } else {
                cylinder
            };
            let h = if own(chance) { chance.small(2) } else { side };
            let r = if own(chance) { chance.small(6) } else { r };
            let n = chance.of(&[0, 0, 0, 0, 1, 1, 2, 3, 4, 7, 255]);
            [c, h, r, n]
        })
        .collect();
    let ids = repeated(ids, chance).into_iter();
    let sectors = ids.map(|id| make(id, chance)).collect();
    let mut track = Track::new(cylinder, side, sectors);
    track.size = chance.byte();
    track.gap = chance.byte();
    track.filler = chance.byte();
    track
}

/// The IDs of a track; of one in three tracks some stand there again in place of
/// others, or one in place of all.
fn repeated(mut ids: Vec<[u8; 4]>, chance: &mut Chance) -> Vec<[u8; 4]> {
    if ids.is_empty() || !chance.once_in(3) {
        return ids;
    }
    if chance.once_in(6) {
        return vec![ids[0]; ids.len()];
    }
    for _ in 0..1 + chance.below(ids.len()) {
        let again = chance.of(&ids);
        let place = chance.below(ids.len());
        ids[place] = again;
    }
    ids
}

/// A few tracks of cylinders 0 and 1, some of them equal, whose sectors bear few IDs. A
/// search finds one of several, and on another such disk not the same one.
pub fn few_ids(chance: &mut Chance) -> Plan {
    let tracks: Vec<Track> = (0..2 + chance.below(4))
        .map(|_| {
            let (cylinder, side) = (chance.small(2), chance.of(&[0, 0, 0, 1]));
            let number = 1 + chance.below(9);
            let sectors = (0..number).map(|_| {
                let r = 1 + chance.small(4);
                stored([cylinder, side, r, 0], chance)
            });
            let sectors = sectors.collect();
            Track::new(cylinder, side, sectors)
        })
        .collect();
    Plan::packed(&tracks)
}

/// A sector with a stored length that mostly is its size.
fn stored(id: [u8; 4], chance: &mut Chance) -> Sector {
    let size: u16 = 128 << (id[3] & 3);
    let length = match chance.below(12) {
        0 => 0,
        1 => 1 + chance.below(300) as u16,
        2 => 2 * size,
        3 => 3 * size,
        _ => size,
    };
    with_status(Sector::stored(id, length), chance)
}

/// A sector as long as its size.
fn sized(id: [u8; 4], chance: &mut Chance) -> Sector {
    with_status(Sector::sized(id), chance)
}

fn with_status(sector: Sector, chance: &mut Chance) -> Sector {
    let [st1, st2] = [(); 2].map(|()| chance.of(&[0, 0, 0, 0, 0x20, 0x40, 0x80, 0xff]));
    sector.status(st1, st2)
}

/// 40 tracks of nine sectors of 512 bytes.
pub fn usual(extended: bool) -> Plan {
    let track = |cylinder: u8| {
        let ids = (1..=9).map(|r| [cylinder, 0, r, 2]);
        let sectors = ids.map(|id| Sector::stored(id, 512)).collect();
        Track::new(cylinder, 0, sectors)
    };
    let plan = if extended {
        Plan::extended(40, 1, &[0x13; 40])
    } else {
        Plan::normal(40, 1, 0x1300)
    };
    plan.row(0x1300, (0..40).map(track))
}

/// Tracks without sectors, their headers one behind another.
pub fn headers(number: u8, sides: u8, chance: &mut Chance) -> Plan {
    let step = 0x18 + chance.below(4);
    let tracks = (0..number)
        .flat_map(|cylinder| (0..sides).map(move |side| Track::new(cylinder, side, Vec::new())));
    Plan::normal(number, sides, step as u16).row(step, tracks)
}

/// Tracks with so many sectors each, none of which stores a byte; more than nine
/// tracks have few sectors.
pub fn rows(numbers: &[u8]) -> Plan {
    let track = |(cylinder, &number): (u8, &u8)| {
        let ids = (1..=number).map(|r| [cylinder, 0, r, 0]);
        Track::new(cylinder, 0, ids.map(|id| Sector::stored(id, 0)).collect())
    };
    let blocks = if numbers.len() > 9 { 1 } else { 9 };
    let table = vec![blocks; numbers.len()];
    let step = usize::from(blocks) * 0x100;
    Plan::extended(table.len() as u8, 1, &table).row(step, (0..).zip(numbers).map(track))
}

/// About 2,048 sectors, or more.
fn many_rows(chance: &mut Chance) -> Plan {
    let last = chance.of(&[7, 8, 9, 200]);
    rows(&[255, 255, 255, 255, 255, 255, 255, 255, last])
}

/// A track with more sectors than the list has place for, so that it runs into
/// the data, and perhaps another track behind.
pub fn long_list(chance: &mut Chance) -> Plan {
    let number = chance.of(&[28, 29, 30, 31, 60, 127, 255]);
    let length = chance.of(&[0, 1, 9, 128]);
    let cylinder = chance.small(3);
    let ids = (1..=number).map(|r| [cylinder, 0, r, chance.small(3)]);
    let ids = repeated(ids.collect(), chance).into_iter();
    let sectors = ids.map(|id| Sector::stored(id, length)).collect();
    let first = Track::new(cylinder, 0, sectors);
    let blocks = blocks(&first, chance);
    let second = track(1, 1, chance, stored);
    let plan = Plan::extended(2, 1, &[blocks, 0x20]).track(FIRST, first);
    plan.track(FIRST + usize::from(blocks) * 0x100, second)
}

/// A track about as long as the table of an image can tell, behind another one.
fn long_track(chance: &mut Chance) -> Plan {
    let bytes = chance.of(&[64_768, 64_769, 65_023, 65_024, 65_025, 65_535]);
    let first = chance.below(bytes) as u16;
    let lengths = (1..).zip([first, bytes as u16 - first]);
    let sectors = lengths.map(|(r, length)| Sector::stored([1, 0, r, 2], length));
    let long = Track::new(1, 0, sectors.collect());
    Plan::packed(&[track(0, 1, chance, stored), long])
}

/// Several tracks that are read at one place.
fn one_place(chance: &mut Chance) -> Plan {
    let (number, sides) = (1 + chance.small(12), 1 + chance.small(3));
    Plan::normal(number, sides, 0).track(FIRST, track(0, 1, chance, sized))
}

/// Tracks that are read at one place, about as many of them, of their sectors and
/// of their bytes as the capacities allow.
fn over_twice(chance: &mut Chance) -> Plan {
    let (number, sectors) = (203 + chance.small(4), 9 + chance.small(3));
    let n = chance.of(&[0, 0, 2, 3]);
    let sectors = (1..=sectors).map(|r| Sector::sized([0, 0, r, n])).collect();
    Plan::normal(number, 1, 0).track(FIRST, Track::new(0, 0, sectors))
}

/// Tracks of large sectors that are read at one place: about 1,048,576 bytes.
pub fn heavy(chance: &mut Chance) -> Plan {
    let number = 126 + chance.small(5);
    let sectors = (1..=8).map(|r| Sector::sized([0, 0, r, 3])).collect();
    Plan::normal(number, 1, 0).track(FIRST, Track::new(0, 0, sectors))
}
