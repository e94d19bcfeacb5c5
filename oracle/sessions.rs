//! The list of sessions, one module for each group. The name of a session says
//! what it would show broken. Each begins with a new controller.

mod changes;
mod commands;
mod damaged;
mod data;
mod datasheets;
mod examples;
mod formats;
mod ids;
mod lost;
mod noise;
mod reads;
mod refusals;
mod sheets;
mod status;
mod traffic;
mod writes;

use std::collections::HashSet;

use crate::dsk::{Plan, Sector, Track};
use crate::session::{Call, Session, Slot};

/// The ID of a sector: C, H, R and N.
type Id = [u8; 4];

/// The drive with disk A, with disk B, and without one.
const A: Call = Call::Put(Slot::A);
const B: Call = Call::Put(Slot::B);
const NONE: Call = Call::Put(Slot::Empty);

/// The image that stands for a fresh disk.
const FRESH: Vec<u8> = Vec::new();

/// The list while it is made.
#[derive(Default)]
struct List {
    sessions: Vec<Session>,
    names: HashSet<String>,
}

impl List {
    /// Adds a session with these two disks, which begins with none in the drive.
    fn add(&mut self, name: impl Into<String>, disks: [Vec<u8>; 2], calls: &[Call]) {
        let name = name.into();
        assert!(self.names.insert(name.clone()), "{name} is there twice");
        let session = Session::new(name, disks, calls.to_vec());
        self.sessions
            .push(session.unwrap_or_else(|fault| panic!("{fault}")));
    }

    /// Adds a session with two disks, the first of them in the drive.
    fn add_two(&mut self, name: impl Into<String>, disks: [Vec<u8>; 2], calls: &[Call]) {
        self.add(name, disks, &[&[A], calls].concat());
    }

    /// Adds a session with this disk in the drive, and one without tracks beside.
    fn add_one(&mut self, name: impl Into<String>, disk: Vec<u8>, calls: &[Call]) {
        self.add_two(name, [disk, no_tracks()], calls);
    }

    /// Adds a session with a fresh disk in the drive, and one without tracks beside.
    fn add_fresh(&mut self, name: impl Into<String>, calls: &[Call]) {
        self.add_one(name, FRESH, calls);
    }

    /// Adds a session with no disk in the drive.
    fn add_none(&mut self, name: impl Into<String>, calls: &[Call]) {
        self.add(name, [FRESH, no_tracks()], calls);
    }
}

/// All sessions, in the order of the list. Those that the Rust cannot answer come
/// last.
pub fn list() -> Vec<Session> {
    let mut list = List::default();
    examples::add(&mut list);
    status::add(&mut list);
    lost::add(&mut list);
    data::add(&mut list);
    commands::add(&mut list);
    reads::add(&mut list);
    writes::add(&mut list);
    ids::add(&mut list);
    formats::add(&mut list);
    changes::add(&mut list);
    noise::add(&mut list);
    traffic::add(&mut list);
    sheets::add(&mut list);
    damaged::add(&mut list);
    datasheets::add(&mut list);
    refusals::add(&mut list);
    list.sessions
}

fn status(times: u16) -> Call {
    Call::Status(times)
}

fn read(times: u16) -> Call {
    Call::Read(times)
}

/// The bytes, sent once.
fn send(bytes: &[u8]) -> Call {
    send_times(1, bytes)
}

/// The bytes, sent so many times.
fn send_times(times: u16, bytes: &[u8]) -> Call {
    Call::Send {
        times,
        bytes: bytes.to_vec(),
    }
}

/// The command as bytes, and a look at what it leaves.
fn sent(command: &[u8]) -> [Call; 2] {
    [send(command), Call::Boxes]
}

/// Read Data from a sector up to number `eot`.
fn read_data(c1: u8, [c, h, r, n]: Id, eot: u8) -> [u8; 9] {
    [0x46, c1, c, h, r, n, eot, 0x2a, 0xff]
}

/// Write Data to a sector.
fn write_data(c1: u8, [c, h, r, n]: Id) -> [u8; 9] {
    [0x45, c1, c, h, r, n, r, 0x2a, 0xff]
}

/// Seek.
fn seek(cylinder: u8) -> Call {
    send(&[0x0f, 0, cylinder])
}

/// Format, with a filler that follows from the other numbers.
fn format(c1: u8, n: u8, count: u8) -> [u8; 6] {
    let fields = [c1, n, count];
    let filler = fields
        .iter()
        .fold(1u8, |sum, field| sum.wrapping_mul(31) ^ field);
    [0x4d, c1, n, count, 0x2a, filler]
}

/// The image of a disk without tracks.
fn no_tracks() -> Vec<u8> {
    Plan::extended(0, 1, &[]).image()
}

/// The image of a disk with these tracks.
fn image(tracks: impl IntoIterator<Item = Track>) -> Vec<u8> {
    Plan::of(tracks).image()
}

/// A track with these sectors and their stored lengths.
fn track(cylinder: u8, side: u8, sectors: &[(Id, u16)]) -> Track {
    let sectors = sectors.iter();
    let sectors = sectors.map(|&(id, length)| Sector::stored(id, length));
    Track::new(cylinder, side, sectors.collect())
}

/// Cylinder 0 of side 0 with these numbers, each sector of 128 bytes.
fn numbered(numbers: &[u8]) -> Track {
    let sectors: Vec<_> = numbers.iter().map(|&r| ([0, 0, r, 0], 128)).collect();
    track(0, 0, &sectors)
}
