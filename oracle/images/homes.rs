//! Disks at the edges of what an extended image holds: what they go home as.

use super::List;
use crate::dsk::Plan;
use crate::home_edges;

/// No other image of this group is longer.
const LONGEST: usize = 8_192;

/// Of the disks with a long track, the last that goes home and the first that does not.
const LONG: [&str; 2] = ["65,024 data bytes", "65,025 data bytes"];

/// Adds the disks whose images are short, and two with a long track.
pub fn add(list: &mut List) {
    for (name, tracks, _) in home_edges::all() {
        let image = Plan::packed(&tracks).image();
        if image.len() <= LONGEST || LONG.contains(&name) {
            let name = name.replace(',', "").replace(' ', "-");
            list.add(format!("home-{name}"), image);
        }
    }
}
