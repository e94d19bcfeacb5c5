//! The table of an extended image: which tracks are there, and where.

use super::List;
use crate::dsk::{FIRST, Plan, Sector, Track, changed, cut};

/// Adds the images that turn on the table of track sizes.
pub fn add(list: &mut List) {
    add_good(list);
    add_listing_example(list);
    add_cut(list);
    add_missing_tracks(list);
    add_other_sizes(list);
    add_long(list);
}

/// A track with one sector that stores `length` bytes.
fn track(cylinder: u8, side: u8, length: u16) -> Track {
    let sector = Sector::stored([cylinder, side, 1, 0], length);
    Track::new(cylinder, side, vec![sector])
}

fn add_good(list: &mut List) {
    let one = Plan::extended(1, 1, &[2]).track(FIRST, track(0, 0, 128));
    list.add("table-one-track", one.image());
    list.add(
        "table-size-bytes-are-ignored-low",
        changed(&one.image(), 0x32, 0),
    );
    list.add(
        "table-size-bytes-are-ignored-high",
        changed(&one.image(), 0x33, 0),
    );
    for (name, tracks, sides) in [
        ("table-two-tracks-two-sides", 2, 2),
        ("table-four-tracks-one-side", 4, 1),
        ("table-one-track-four-sides", 1, 4),
    ] {
        let plan = Plan::extended(tracks, sides, &[2, 2, 2, 2])
            .track(0x100, track(0, 0, 128))
            .track(0x300, track(0, 1, 64))
            .track(0x500, track(1, 0, 32))
            .track(0x700, track(1, 1, 16));
        list.add(name, plan.image());
    }
}

/// The image of the listing program's example.
fn add_listing_example(list: &mut List) {
    let sectors = vec![
        Sector::stored([0, 0, 1, 1], 256),
        Sector::stored([0, 0, 2, 1], 512).status(32, 32),
    ];
    let plan = Plan::extended(1, 1, &[4]).track(FIRST, Track::new(0, 0, sectors));
    list.add("table-listing-example", plan.image());
}

fn add_cut(list: &mut List) {
    let absent = Plan::extended(2, 3, &[0; 6]).image();
    let present = Plan::extended(2, 3, &[2; 6]).image();
    list.add("table-missing", cut(&absent, 0x34));
    for (name, image) in [("absent", absent), ("present", present)] {
        let name = format!("table-of-{name}-tracks");
        list.add(format!("{name}-one-byte-short"), cut(&image, 0x39));
        list.add(format!("{name}-exactly-there"), image);
    }
}

/// An entry 0 is no track and takes no room.
fn add_missing_tracks(list: &mut List) {
    for (name, table) in [
        ("first", [0, 2, 2]),
        ("middle", [2, 0, 2]),
        ("last", [2, 2, 0]),
    ] {
        let plan = Plan::extended(3, 1, &table)
            .track(0x100, track(5, 0, 128))
            .track(0x300, track(6, 0, 64));
        list.add(format!("table-entry-0-{name}"), plan.image());
    }
    let all = Plan::extended(3, 1, &[0; 3]).track(FIRST, track(5, 0, 128));
    list.add("table-entry-0-everywhere", all.image());
    let last = Plan::extended(3, 1, &[0, 0, 2]).track(FIRST, track(5, 0, 128));
    list.add("table-entry-0-but-the-last", last.image());
}

/// The next track is where the table says, whatever the data took.
fn add_other_sizes(list: &mut List) {
    let two = |first: u8, second: usize, length: u16| {
        Plan::extended(2, 1, &[first, 2])
            .track(FIRST, track(0, 0, length))
            .track(second, track(1, 0, 100))
            .image()
    };
    list.add("table-entry-larger-than-the-data", two(5, 0x600, 128));
    list.add("table-entry-smaller-than-the-data", two(2, 0x300, 700));
    list.add("table-entry-1-lays-tracks-over-data", two(1, 0x200, 128));
    list.add("table-entry-leads-past-the-next-track", two(3, 0x300, 128));
    list.add(
        "table-entry-leads-before-the-next-track",
        two(1, 0x300, 128),
    );
    let mut after = two(2, 0x300, 128);
    after.extend(b"Track-Info\r\n behind the last track");
    list.add("table-bytes-after-the-last-track", after);
    let last = Plan::extended(1, 1, &[255]).track(FIRST, track(0, 0, 128));
    list.add("table-last-entry-needs-no-bytes", last.image());
    let missing = Plan::extended(2, 1, &[255, 1]).track(FIRST, track(0, 0, 128));
    list.add("table-entry-255-leads-past-the-end", missing.image());
}

/// From 205 entries on, the table reaches into the first track.
fn add_long(list: &mut List) {
    let mut table = [0; 205];
    table[203] = 2;
    let full = Plan::extended(51, 4, &table[..204]).track(FIRST, track(0, 0, 128));
    list.add("table-of-204-entries", full.image());
    let over = Plan::extended(41, 5, &table)
        .track(0x100, track(0, 0, 128))
        .track(0x300, track(1, 0, 128));
    list.add("table-of-205-entries-has-the-track-as-entry", over.image());
    let long = Plan::extended(64, 16, &[0; 1_024]).image();
    list.add(
        "table-of-1024-entries-one-byte-short",
        cut(&long, long.len() - 1),
    );
    list.add("table-of-1024-entries-exactly-there", long);
}
