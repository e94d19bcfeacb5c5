//! Stored lengths of an extended image, and data that end too soon.

use super::List;
use crate::dsk::{FIRST, Plan, Sector, Track, cut};

/// Adds the images that turn on the length of sector data.
pub fn add(list: &mut List) {
    add_without_data(list);
    add_lengths(list);
    add_large(list);
    add_short_data(list);
}

/// An extended image of one track whose sectors store these lengths.
fn image(lengths: &[u16]) -> Vec<u8> {
    let sectors = (1..).zip(lengths);
    let sectors = sectors.map(|(r, &length)| Sector::stored([0, 0, r, 1], length));
    let track = Track::new(0, 0, sectors.collect());
    Plan::extended(1, 1, &[2]).track(FIRST, track).image()
}

/// Sectors of length 0 need no bytes where the data begin.
fn add_without_data(list: &mut List) {
    list.add("length-0-of-the-only-sector", image(&[0]));
    list.add("length-0-of-all-sectors", image(&[0, 0, 0]));
    list.add("length-0-first", image(&[0, 40, 30]));
    list.add("length-0-between", image(&[40, 0, 30]));
    list.add("length-0-last", image(&[40, 30, 0]));
}

fn add_lengths(list: &mut List) {
    for length in [1, 2, 127, 128, 255, 256, 257, 300, 512, 768, 1_000] {
        list.add(format!("length-{length:04}"), image(&[length, 5]));
    }
    list.add(
        "length-of-one-two-and-three-copies",
        image(&[256, 512, 768]),
    );
    list.add(
        "length-differs-from-sector-to-sector",
        image(&[1, 200, 3, 400]),
    );
}

/// Over 32,767 bytes, a table entry over 127 that leads behind them, and an
/// image of 65,536 bytes.
fn add_large(list: &mut List) {
    let first = Track::new(0, 0, vec![Sector::stored([0, 0, 1, 6], 0x8001)]);
    let second = Track::new(1, 0, vec![Sector::stored([1, 0, 1, 6], 0x7c00)]);
    let plan = Plan::extended(2, 1, &[0x82, 0x7d])
        .track(0x0100, first)
        .track(0x8300, second);
    list.add("length-over-32767-in-an-image-of-65536", plan.image());
    let mut missing = image(&[1]);
    missing[0x11e..0x120].fill(255);
    list.add("length-65535-is-not-there", missing);
}

fn add_short_data(list: &mut List) {
    let extended = image(&[40, 30]);
    let ids = [[0, 0, 1, 0], [0, 0, 2, 1]];
    let track = Track::new(0, 0, ids.map(Sector::sized).to_vec());
    let normal = Plan::normal(1, 1, 0x280).track(FIRST, track).image();
    for (name, image, second) in [("extended", extended, 30), ("normal", normal, 256)] {
        let end = image.len();
        for (what, length) in [
            ("missing", 0x200),
            ("of-the-second-sector-missing", end - second),
            ("of-the-first-sector-one-short", end - second - 1),
            ("one-byte-short", end - 1),
            ("exactly-there", end),
        ] {
            list.add(format!("length-{name}-data-{what}"), cut(&image, length));
        }
        let name = format!("length-{name}-list-whole-and-nothing-behind");
        list.add(name, cut(&image, 0x128));
    }
}
