//! The header and the sector list of a track.

use super::List;
use crate::dsk::{FIRST, Plan, Sector, Track, changed, cut};

/// Adds the images that turn on one track's header or list, or on the order of
/// tracks and sectors.
pub fn add(list: &mut List) {
    add_signatures(list);
    add_cut(list);
    add_fields(list);
    add_numbers_of_sectors(list);
    add_cut_lists(list);
    add_equal_and_unsorted(list);
    add_first_fault(list);
}

/// Sectors 1 to `number` of a track, `length` bytes each.
fn row(number: u8, length: u16) -> Vec<Sector> {
    (1..=number)
        .map(|r| Sector::stored([0, 0, r, 0], length).status(r, !r))
        .collect()
}

fn one(track: Track) -> Plan {
    Plan::extended(1, 1, &[2]).track(FIRST, track)
}

fn add_signatures(list: &mut List) {
    let image = one(Track::new(0, 0, row(1, 16))).image();
    for at in 0..12 {
        let name = format!("track-signature-byte-{at:02}-wrong");
        list.add(name, changed(&image, FIRST + at, image[FIRST + at] ^ 0x20));
    }
    let second = Plan::extended(2, 1, &[2, 2])
        .track(0x100, Track::new(0, 0, row(1, 16)))
        .track(0x300, Track::new(1, 0, row(1, 16)))
        .image();
    list.add(
        "track-signature-of-the-second-wrong",
        changed(&second, 0x300, b't'),
    );
}

fn add_cut(list: &mut List) {
    let image = one(Track::new(0, 0, Vec::new())).image();
    let wrong = changed(&image, FIRST, b't');
    for length in [0, 11, 12, 13, 0x17, 0x18] {
        let name = format!("track-without-sectors-cut-after-{length:02}");
        list.add(name, cut(&image, FIRST + length));
    }
    list.add(
        "track-signature-short-before-wrong",
        cut(&wrong, FIRST + 11),
    );
    list.add(
        "track-signature-wrong-before-short",
        cut(&wrong, FIRST + 12),
    );
}

fn add_fields(list: &mut List) {
    let base = || Track::new(1, 0, row(1, 16));
    let fields = |value: u8| Track {
        cylinder: value,
        side: value,
        size: value,
        gap: value,
        filler: value,
        ..base()
    };
    list.add("track-fields-all-0", one(fields(0)).image());
    list.add("track-fields-all-255", one(fields(255)).image());
    let order = Track {
        cylinder: 10,
        side: 11,
        size: 12,
        gap: 13,
        filler: 14,
        ..base()
    };
    list.add("track-fields-in-their-order", one(order).image());
    list.add("track-of-side-2", one(Track { side: 2, ..base() }).image());
    let cylinder = 255;
    list.add(
        "track-of-cylinder-255",
        one(Track { cylinder, ..base() }).image(),
    );
    let sector = Sector::stored([1, 2, 3, 4], 16).status(5, 6);
    let entry = Track::new(1, 0, vec![sector]);
    list.add("track-entry-in-its-order", one(entry).image());
}

/// Past 29 sectors the list runs into the data.
fn add_numbers_of_sectors(list: &mut List) {
    for number in [1, 2, 28, 29, 30, 31, 40, 127, 128, 255] {
        let plan = one(Track::new(0, 0, row(number, 8)));
        list.add(format!("track-of-{number:03}-sectors"), plan.image());
    }
    for number in [29, 30, 255] {
        let plan = one(Track::new(0, 0, row(number, 0)));
        let name = format!("track-of-{number:03}-sectors-without-data");
        list.add(name, plan.image());
    }
    for number in [29, 30, 40] {
        let ids = (1..=number).map(|r| Sector::sized([0, 0, r, 0]));
        let track = Track::new(0, 0, ids.collect());
        let plan = Plan::normal(1, 1, 0x100).track(FIRST, track);
        list.add(format!("track-of-{number:03}-sectors-normal"), plan.image());
    }
}

fn add_cut_lists(list: &mut List) {
    let few = one(Track::new(0, 0, row(3, 0))).image();
    let many = one(Track::new(0, 0, row(40, 0))).image();
    for (name, image) in [("3", few), ("40", many)] {
        for short in [1, 2, 7, 8, 9] {
            let name = format!("track-list-of-{name}-sectors-{short}-short");
            list.add(name, cut(&image, image.len() - short));
        }
        list.add(format!("track-list-of-{name}-sectors-whole"), image);
    }
}

fn add_equal_and_unsorted(list: &mut List) {
    let ids = [[0, 0, 7, 0], [0, 0, 3, 0], [0, 0, 7, 0], [0, 0, 7, 1]];
    let sectors = ids.map(|id| Sector::stored(id, 32)).to_vec();
    list.add(
        "track-with-one-id-twice",
        one(Track::new(0, 0, sectors)).image(),
    );
    for (name, places) in [
        (
            "track-of-one-cylinder-and-side-twice",
            [(3, 1), (3, 1), (3, 0)],
        ),
        ("track-order-is-that-of-the-image", [(9, 0), (2, 1), (2, 0)]),
    ] {
        let tracks = places.map(|(cylinder, side)| Track::new(cylinder, side, row(1, 24)));
        list.add(name, Plan::of(tracks).image());
    }
}

/// Of two faults the one counts that is met first.
fn add_first_fault(list: &mut List) {
    let image = Plan::extended(2, 1, &[1, 1])
        .track(0x100, Track::new(0, 0, row(1, 300)))
        .track(0x200, Track::new(1, 0, row(1, 16)))
        .image();
    let second = changed(&image, 0x200, b't');
    list.add("track-fault-in-the-second", second.clone());
    let short = cut(&second, image.len() - 1);
    list.add(
        "track-fault-of-short-data-before-a-signature",
        short.clone(),
    );
    list.add(
        "track-fault-of-a-signature-before-short-data",
        changed(&short, 0x100, b't'),
    );
    list.add(
        "track-fault-behind-a-fault-of-the-disk",
        changed(&second, 0, b'e'),
    );
}
