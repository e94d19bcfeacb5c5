//! The Rust and the library side by side in one run: how long each takes for the
//! same calls, and their ratio.

mod ports;
mod table;
mod work;

use std::hint::black_box;
use std::io::Cursor;
use std::time::{Duration, Instant};

use raze::disk::Disk;
use raze::floppy::Floppy;

use crate::host::{self, TABLE};
use crate::made;
use ports::Ours;
use table::Row;
use work::Work;

/// How often each side is timed.
const REPETITIONS: usize = 301;

/// Times everything, and prints the table.
pub fn run() {
    let rows = [
        load("load, extended, 194,816 bytes", &made::usual(true)),
        load("load, normal, 194,816 bytes", &made::usual(false)),
        home(
            "write home, extended, 194,816 bytes (beside a copy of as many bytes)",
            &made::usual(true),
        ),
        over_ports("read a sector, status before each byte", Work::ReadPolled),
        over_ports("read a sector, no status", Work::ReadPlain),
        over_ports("status read, idle", Work::PollIdle),
        over_ports("status read, data unread", Work::PollData),
        over_ports("data read, data unread", Work::ReadBytes),
        over_ports("byte sent, held by a write", Work::SendHeld),
        over_ports("save a sector of 512 bytes", Work::SaveAll),
        over_ports("format a track that is there", Work::FormatPresent),
        over_ports("format a track that is not there", Work::FormatAbsent),
        over_ports("Read ID with its reply", Work::ReadIds),
        over_ports("Sense Drive with its reply", Work::SenseDrive),
    ];
    table::print(&rows, REPETITIONS);
}

/// Times both sides in turns; each is first every other time.
fn turns(
    name: &'static str,
    operations: usize,
    mut rust: impl FnMut() -> Duration,
    mut ours: impl FnMut() -> Duration,
) -> Row {
    let mut row = Row::new(name);
    rust();
    ours();
    for number in 0..REPETITIONS {
        let (rust, ours) = if number % 2 == 0 {
            let rust = rust();
            (rust, ours())
        } else {
            let ours = ours();
            (rust(), ours)
        };
        row.add(rust, ours, operations);
    }
    row
}

/// Times a load of the image. The Rust makes its disk in memory that it asks for,
/// and gives it back outside the timed part; the library lays it in buffers that
/// are there.
fn load(name: &'static str, image: &[u8]) -> Row {
    const LOADS: usize = 10;
    let mut table = vec![0; TABLE];
    let mut data = vec![0; 40 * 9 * 512];
    let rust = || {
        let mut disks = Vec::with_capacity(LOADS);
        let start = Instant::now();
        for _ in 0..LOADS {
            disks.push(Disk::new(Cursor::new(black_box(image))));
        }
        let time = start.elapsed();
        assert!(
            black_box(disks).iter().all(Result::is_ok),
            "the image loads"
        );
        time
    };
    let ours = || {
        let start = Instant::now();
        for _ in 0..LOADS {
            let answer = host::disk_new(black_box(image), &mut table, &mut data);
            assert_eq!(black_box(answer), 0, "the image loads");
        }
        start.elapsed()
    };
    turns(name, LOADS, rust, ours)
}

/// Times the writing of the image's disk as an extended image. The Rust writes none:
/// what is timed beside it is a copy of as many bytes.
fn home(name: &'static str, image: &[u8]) -> Row {
    const WRITES: usize = 10;
    let mut table = vec![0; TABLE];
    let mut data = vec![0; 40 * 9 * 512];
    let answer = host::disk_new(image, &mut table, &mut data);
    assert_eq!(answer, 0, "the image loads");
    let (mut copied, mut written) = (vec![0; image.len()], vec![0; image.len()]);
    let copy = || {
        let start = Instant::now();
        for _ in 0..WRITES {
            black_box(&mut copied).copy_from_slice(black_box(image));
        }
        start.elapsed()
    };
    let ours = || {
        let start = Instant::now();
        for _ in 0..WRITES {
            let answer = host::write_image(&table, &data, black_box(&mut written));
            assert_eq!(answer >> 32, image.len() as u64, "the disk is written");
        }
        start.elapsed()
    };
    turns(name, WRITES, copy, ours)
}

/// Times work at the ports, each time on a new controller with a fresh disk.
fn over_ports(name: &'static str, work: Work) -> Row {
    let (mut seen_by_rust, mut seen_by_ours) = (Vec::new(), Vec::new());
    let rust = || {
        let mut floppy = Floppy::new();
        floppy.set_disk(Some(Disk::new_formatted()));
        let (time, seen) = work.run(&mut floppy);
        seen_by_rust.push(seen);
        time
    };
    let ours = || {
        let (time, seen) = work.run(&mut Ours::new());
        seen_by_ours.push(seen);
        time
    };
    let row = turns(name, work.operations(), rust, ours);
    assert_eq!(seen_by_rust, seen_by_ours, "{name}: both read the same");
    row
}
