//! Images that another program wrote: libdsk. They are kept as files, and
//! `oracle/libdsk/README.md` says how they were made.

use super::List;

/// Adds the images that libdsk wrote.
pub fn add(list: &mut List) {
    let normal = include_bytes!("../libdsk/normal-cpcsys.dsk");
    let extended = include_bytes!("../libdsk/extended-cpcdata.dsk");
    let two_sides = include_bytes!("../libdsk/extended-acorn800.dsk");
    list.add("libdsk-normal-cpcsys", normal.to_vec());
    list.add("libdsk-extended-cpcdata", extended.to_vec());
    list.add("libdsk-extended-acorn800", two_sides.to_vec());
}
