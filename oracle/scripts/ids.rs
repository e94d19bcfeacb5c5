//! IDs by index, which counts round the track.

use super::{List, format, id, image, no_tracks, track, track_of};
use crate::script::Place;

/// Adds the scripts that ask for IDs.
pub fn add(list: &mut List) {
    for count in [1, 2, 3, 7] {
        let indexes = [
            0,
            1,
            count - 1,
            count,
            count + 1,
            2 * count,
            255,
            256,
            65_535,
        ];
        let ids = indexes.map(|index| id([0, 2], index));
        let name = format!("id-of-{count}-sectors");
        list.add(name, image([track([0, 2], count as u8)]), &ids);
    }
    let tracks = image([
        track([0, 2], 0),
        track([1, 2], 2),
        track([0, 2], 3),
        track([2, 4], 2),
    ]);
    let places: [Place; 6] = [[0, 2], [1, 2], [2, 2], [0, 4], [2, 4], [1, 4]];
    let ids = [0, 1, 65_535].map(|index| places.map(|place| id(place, index)));
    list.add(
        "id-of-empty-missing-and-equal-tracks",
        tracks,
        &ids.concat(),
    );
    list.add(
        "id-without-tracks",
        no_tracks(),
        &[id([0, 0], 0), id([0, 0], 65_535)],
    );
    let ids = [[9, 8, 7, 6], [0; 4], [9, 8, 7, 6], [1, 2, 255, 255]];
    let other = image([track_of(ids.map(|id| (id, 0)))]);
    let indexes = [0, 1, 2, 3, 4, 65_535].map(|index| id([0, 2], index));
    list.add("id-of-other-ids", other, &indexes);
    let wide = [
        0, 1, 127, 128, 253, 254, 255, 256, 510, 65_279, 65_280, 65_535,
    ];
    let wide = wide.map(|index| id([1, 0], index));
    let operations = [[format([1, 0], 0, 255)].as_slice(), &wide].concat();
    list.add("id-of-255-sectors", no_tracks(), &operations);
    let fresh = [
        ([0, 0], 0),
        ([0, 39], 8),
        ([0, 39], 9),
        ([0, 40], 0),
        ([1, 0], 0),
    ];
    let fresh = fresh.map(|(place, index)| id(place, index));
    list.add_fresh("id-of-a-fresh-disk", &fresh);
}
