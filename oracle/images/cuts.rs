//! Two good images of two tracks, cut at and beside every boundary of fields,
//! list entries and data.

use std::collections::BTreeSet;

use super::List;
use crate::dsk::{Plan, Sector, Track, cut};

/// Adds the cuts of both images, the shortest first.
pub fn add(list: &mut List) {
    add_cuts(list, "extended", &extended());
    add_cuts(list, "normal", &normal());
}

fn extended() -> Plan {
    let first = [
        Sector::stored([0, 0, 1, 0], 7),
        Sector::stored([0, 0, 2, 0], 0),
        Sector::stored([0, 0, 3, 0], 33).status(32, 64),
    ];
    let second = [
        Sector::stored([1, 0, 1, 0], 1),
        Sector::stored([1, 0, 2, 2], 20),
    ];
    Plan::extended(2, 1, &[2, 2])
        .track(0x100, Track::new(0, 0, first.to_vec()))
        .track(0x300, Track::new(1, 0, second.to_vec()))
}

fn normal() -> Plan {
    let first = [[0, 0, 1, 0], [0, 0, 2, 4]].map(Sector::sized);
    let second = [[1, 0, 1, 0]].map(Sector::sized);
    Plan::normal(2, 1, 0x201)
        .track(0x100, Track::new(0, 0, first.to_vec()))
        .track(0x301, Track::new(1, 0, second.to_vec()))
}

fn add_cuts(list: &mut List, kind: &str, plan: &Plan) {
    let image = plan.image();
    let beside = |at: usize| at.saturating_sub(1)..=at + 1;
    let mut lengths: BTreeSet<usize> = (0x2f..=0x36).collect();
    lengths.extend(plan.boundaries().into_iter().flat_map(beside));
    for &length in lengths.range(..=image.len()) {
        list.add(format!("{kind}-cut-at-{length:04}"), cut(&image, length));
    }
}
