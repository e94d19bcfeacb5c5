//! The list of images, one module for each group. The name of an image says what
//! it would show broken.

mod cuts;
mod damaged;
mod edges;
mod geometry;
mod headers;
mod homes;
mod lengths;
mod libdsk;
mod lookups;
mod many;
mod normal;
mod signatures;
mod tables;
mod tracks;

use std::collections::HashSet;

use crate::stream::Record;

/// The list while it is made.
#[derive(Default)]
struct List {
    records: Vec<Record>,
    names: HashSet<String>,
}

impl List {
    fn add(&mut self, name: impl Into<String>, image: Vec<u8>) {
        let name = name.into();
        assert!(self.names.insert(name.clone()), "{name} is there twice");
        let record = Record::new(name, image);
        self.records
            .push(record.unwrap_or_else(|fault| panic!("{fault}")));
    }
}

/// All images, in the order of the list.
pub fn list() -> Vec<Record> {
    let mut list = List::default();
    signatures::add(&mut list);
    headers::add(&mut list);
    tables::add(&mut list);
    normal::add(&mut list);
    tracks::add(&mut list);
    lengths::add(&mut list);
    lookups::add(&mut list);
    geometry::add(&mut list);
    cuts::add(&mut list);
    edges::add(&mut list);
    homes::add(&mut list);
    many::add(&mut list);
    damaged::add(&mut list);
    libdsk::add(&mut list);
    list.records
}
