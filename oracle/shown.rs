//! Prints what the Rust's controller answers in a session.

use std::io::{self, Write};

use raze::disk::Disk;
use raze::floppy::Boxes;

use crate::capacities::{MOST_TRANSFER, Totals, transfer_refusal};
use crate::datasheet::{Machine, Model};
use crate::session::{Call, Hex, Session, Shown, Slot};
use crate::sheet::Sheet;
use crate::{Failure, dump, load};

/// A disk with more tracks or sectors is not printed whole.
const MOST_PRINTED: usize = 40;

/// The number of the transfer buffer.
const TRANSFER: u16 = 3;

/// The controller, the disks that are not in its drive, and how many bytes of the
/// transfer buffer are lent, which only counts where a sheet is read.
struct Bench {
    floppy: Model,
    slot: Slot,
    a: Option<Disk>,
    b: Option<Disk>,
    transfer: usize,
}

/// Prints what each call of the session answers, and what is left in the end: motor,
/// track and disk, boxes, and both disks.
pub fn print(session: &Session, out: &mut impl Write) -> Result<(), Failure> {
    let [a, b] = session.images();
    let mut bench = Bench {
        floppy: Model::new(Machine::Rust),
        slot: Slot::Empty,
        a: Some(load::disk(session.name(), a)?),
        b: Some(load::disk(session.name(), b)?),
        transfer: MOST_TRANSFER,
    };
    writeln!(out, "session {}", session.name())?;
    for call in session.calls().iter().chain(&[Call::Ask, Call::Boxes]) {
        write!(out, "{call}")?;
        let done = bench.call(call, out)?;
        done.map_err(|fault| Failure::Stream(format!("{}: {call}: {fault}", session.name())))?;
        writeln!(out)?;
    }
    Ok(bench.finish(out)?)
}

impl Bench {
    /// Does one call, and prints its answer behind it; or says why the Rust cannot
    /// be asked.
    fn call(&mut self, call: &Call, out: &mut impl Write) -> io::Result<Result<(), String>> {
        if self.transfer < MOST_TRANSFER && is_lent_transfer(call) {
            return Ok(Err("not all of the transfer buffer is lent".to_owned()));
        }
        match call {
            Call::Put(slot) => self.put(*slot),
            Call::Motor(on) => self.floppy.set_motor(*on),
            Call::Status(times) => {
                let answers: Vec<u8> = (0..*times).map(|_| self.floppy.read_status()).collect();
                write!(out, "{}", Shown(&answers))?;
            }
            Call::Read(times) => {
                let answers: Vec<u8> = (0..*times).map(|_| self.floppy.read_cmd()).collect();
                write!(out, "{}", Shown(&answers))?;
            }
            Call::Send { times, bytes } => return Ok(self.send(*times, bytes)),
            Call::Ask => self.print_asked(out)?,
            Call::Boxes => {
                print_boxes(&self.floppy.boxes(), out)?;
                print_work(&self.floppy, out)?;
            }
            Call::Sheet => {
                let sheet = Sheet::of(&self.floppy).bytes();
                write!(out, " {}{}", sheet.len(), Shown(&sheet))?;
            }
            Call::Resume(sheet) => match self.resume(sheet) {
                Ok(()) => write!(out, " done")?,
                Err(number) => write!(out, " refused {number}")?,
            },
            Call::Lend {
                buffer: TRANSFER,
                length,
            } => self.transfer = *length as usize,
            Call::Lend { .. } | Call::Table { .. } | Call::Number { .. } => {
                return Ok(Err("the Rust has nothing of the kind".to_owned()));
            }
        }
        Ok(Ok(()))
    }

    /// Takes the disk out of the drive, and puts another in.
    fn put(&mut self, slot: Slot) {
        let old = self.floppy.take_disk();
        match self.slot {
            Slot::Empty => {}
            Slot::A => self.a = old,
            Slot::B => self.b = old,
        }
        self.slot = slot;
        self.floppy.set_disk(match slot {
            Slot::Empty => None,
            Slot::A => self.a.take(),
            Slot::B => self.b.take(),
        });
    }

    /// Sends bytes. A byte that the capacities would refuse is a fault of the list.
    fn send(&mut self, times: u16, bytes: &[u8]) -> Result<(), String> {
        for _ in 0..times {
            for &byte in bytes {
                self.floppy.write_cmd(byte);
                if let Some(number) = self.refusal() {
                    return Err(format!("a byte that is refused, {number}"));
                }
            }
        }
        Ok(())
    }

    /// Takes up the boxes of a sheet, with no disk in the drive; or answers why it is
    /// refused.
    fn resume(&mut self, sheet: &[u8]) -> Result<(), u8> {
        let sheet = Sheet::read(sheet, self.transfer)?;
        self.put(Slot::Empty);
        sheet.set(&mut self.floppy);
        Ok(())
    }

    /// The refusal number of what the disk and the transfer buffer now hold.
    fn refusal(&self) -> Option<u8> {
        let (data, _) = self.floppy.unread();
        let disk = self.floppy.disk().map(Totals::of);
        disk.and_then(|totals| totals.refusal())
            .or(transfer_refusal(data, u32::MAX))
    }

    fn print_asked(&self, out: &mut impl Write) -> io::Result<()> {
        write!(
            out,
            " motor {} track {} disk {}",
            u8::from(self.floppy.motor()),
            self.floppy.current_track(),
            u8::from(self.floppy.disk().is_some())
        )
    }

    /// Prints both disks as they are in the end.
    fn finish(mut self, out: &mut impl Write) -> io::Result<()> {
        self.put(Slot::Empty);
        for (name, disk) in [("a", self.a), ("b", self.b)] {
            writeln!(out, "disk {name}")?;
            print_disk(&disk.expect("both disks are out"), out)?;
        }
        Ok(())
    }
}

/// Whether the transfer buffer is lent to a port call, or to the writing of a sheet.
/// The Rust has none, and answers as where all of it is lent.
fn is_lent_transfer(call: &Call) -> bool {
    matches!(call, Call::Read(_) | Call::Send { .. } | Call::Sheet)
}

fn print_boxes(boxes: &Boxes, out: &mut impl Write) -> io::Result<()> {
    let Boxes {
        seek, lost, index, ..
    } = boxes;
    write!(out, " seek {seek} lost {lost} index {index}")?;
    write!(out, " command{}", Hex(boxes.command))?;
    write!(out, " reply{}", Hex(boxes.reply))?;
    let (data, check) = (boxes.data.len(), dump::check(boxes.data));
    write!(out, " data {data} {check}")
}

/// The write or the Format in progress: how many bytes it still takes, its numbers, and the
/// check number of the bytes that it has.
fn print_work(floppy: &Model, out: &mut impl Write) -> io::Result<()> {
    if let Some(format) = floppy.format() {
        let (left, check) = (format.left(), dump::check(&format.ids));
        return write!(out, " format {left}{} {check}", Hex(&format.numbers()));
    }
    let Some((c1, id, left, held)) = floppy.boxes().write else {
        return write!(out, " write none");
    };
    let five = [c1, id.c, id.h, id.r, id.n];
    write!(out, " write {left}{} {}", Hex(&five), dump::check(held))
}

/// Prints the disk whole, or where that is long its totals and two check numbers:
/// of its rows, and of all data.
fn print_disk(disk: &Disk, out: &mut impl Write) -> io::Result<()> {
    let totals = Totals::of(disk);
    if totals.tracks.max(totals.sectors) <= MOST_PRINTED {
        return dump::print(disk, out);
    }
    let sectors = disk.tracks().iter().flat_map(|track| track.sectors());
    let data: Vec<u8> = sectors.flat_map(|sector| sector.data.clone()).collect();
    let (rows, data) = (dump::check(&rows(disk)), dump::check(&data));
    writeln!(out, "{totals}\ncheck {rows} {data}")
}

/// The number of tracks; of each track cylinder, side, size, gap, filler, number
/// of sectors; of each of its sectors ID, status and stored length.
fn rows(disk: &Disk) -> Vec<u8> {
    let mut rows = vec![disk.tracks().len() as u8];
    for track in disk.tracks() {
        let size = track.sector_size();
        rows.extend([
            track.cylinder(),
            track.side(),
            size,
            track.gap3(),
            track.filler(),
        ]);
        rows.push(track.sectors().len() as u8);
        for sector in track.sectors() {
            let id = &sector.id;
            rows.extend([id.c, id.h, id.r, id.n, sector.st1.bits(), sector.st2.bits()]);
            rows.extend((sector.data.len() as u16).to_le_bytes());
        }
    }
    rows
}
