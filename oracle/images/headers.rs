//! The numbers of tracks and sides, and images that end with the header.

use super::List;
use crate::dsk::{FIRST, Plan, Sector, Track, changed, cut};

/// Adds the images that have no track, and those that end inside the header.
pub fn add(list: &mut List) {
    add_cut(list, "normal", &Plan::normal(1, 1, 0x180).image());
    add_cut(list, "extended", &Plan::extended(1, 1, &[2]).image());
    add_empty(list, "normal", &Plan::normal(0, 0, 0x180));
    add_empty(list, "extended", &Plan::extended(0, 0, &[]));
    add_empty_with_track(list);
}

fn add_cut(list: &mut List, kind: &str, image: &[u8]) {
    for length in 0x30..=0x34 {
        let name = format!("header-{kind}-of-one-track-cut-at-{length:04}");
        list.add(name, cut(image, length));
    }
}

fn add_empty(list: &mut List, kind: &str, plan: &Plan) {
    let neither = plan.image();
    let no_tracks = changed(&neither, 0x31, 1);
    let no_sides = changed(&neither, 0x30, 255);
    for length in [51, 52] {
        for (numbers, image) in [
            ("no-tracks", &no_tracks),
            ("no-sides", &no_sides),
            ("no-tracks-no-sides", &neither),
        ] {
            let name = format!("header-{kind}-{numbers}-{length}-bytes");
            list.add(name, cut(image, length));
        }
    }
}

/// A track that the numbers do not announce is not looked at.
fn add_empty_with_track(list: &mut List) {
    let track = || Track::new(0, 0, vec![Sector::sized([0, 0, 1, 0])]);
    let normal = Plan::normal(0, 2, 0x180).track(FIRST, track());
    let extended = Plan::extended(2, 0, &[2, 2]).track(FIRST, track());
    list.add("header-normal-track-not-announced", normal.image());
    list.add("header-extended-track-not-announced", extended.image());
}
