//! The sheet of a controller, by the words of requests 2026-01 and 2026-06: a version
//! byte, the length of the rest in four bytes, and every box behind its own length.
//! Numbers have their high byte first. The Rust has nothing of the kind.

use raze::floppy::{Boxes, Floppy, SectorId};

use crate::capacities::transfer_refusal;
use crate::datasheet::{Format, Machine, Model};

/// How many boxes a sheet has, and the places of some of them. That of unread data has
/// a length of four bytes.
pub const BOXES: usize = 11;
pub const MOTOR: usize = 0;
const CYLINDER: usize = 1;
pub const SEEK: usize = 2;
const INDEX: usize = 3;
pub const COMMAND: usize = 4;
pub const REPLY: usize = 5;
pub const DATA: usize = 6;
pub const LOST: usize = 7;
pub const WRITE: usize = 8;
pub const MACHINE: usize = 9;
pub const FORMAT: usize = 10;

/// How many bytes stand before the first box: the version and the length of the rest.
pub const HEAD: usize = 5;

/// The version that is written, and the one before it, which has the boxes up to that of
/// a write and is of the Rust machine.
pub const VERSION: u8 = 2;
pub const OLD_VERSION: u8 = 1;
const OLD_BOXES: usize = MACHINE;

/// The refusal number of bytes that are no sheet.
const BROKEN: u8 = 11;

/// A longer reply and a greater lost count are impossible.
const MOST_REPLY: usize = 7;
const MOST_LOST: u8 = 2;

/// The boxes of a controller, all but its disk.
#[derive(Clone, Default)]
pub struct Sheet {
    pub motor: bool,
    pub cylinder: u8,
    /// 0 idle, 1 running, 2 done.
    pub seek: u8,
    pub index: u16,
    /// The bytes of a command that is partly sent.
    pub command: Vec<u8>,
    /// What is unread of the reply.
    pub reply: Vec<u8>,
    /// What is unread of the data.
    pub data: Vec<u8>,
    pub lost: u8,
    pub write: Option<Write>,
    pub machine: Machine,
    /// A Format that still takes IDs.
    pub format: Option<Format>,
}

/// A write in progress: the second byte of its command, its sector, and the bytes
/// so far.
#[derive(Clone)]
pub struct Write {
    pub c1: u8,
    pub id: SectorId,
    pub held: Vec<u8>,
}

impl Write {
    /// The bytes of its box.
    fn bytes(&self) -> Vec<u8> {
        let SectorId { c, h, r, n } = self.id;
        [&[self.c1, c, h, r, n], &self.held[..]].concat()
    }

    /// The write in a box, which may be none, if the box is as long as one.
    fn read(bytes: &[u8]) -> Option<Option<Write>> {
        match *bytes {
            [] => Some(None),
            [c1, c, h, r, n, ref held @ ..] => Some(Some(Write {
                c1,
                id: SectorId { c, h, r, n },
                held: held.to_vec(),
            })),
            _ => None,
        }
    }
}

impl Format {
    /// The bytes of its box.
    fn bytes(&self) -> Vec<u8> {
        [&self.numbers(), &self.ids[..]].concat()
    }

    /// The Format in a box, which may be none, if the box is as long as one.
    fn read(bytes: &[u8]) -> Option<Option<Format>> {
        match *bytes {
            [] => Some(None),
            [c1, n, count, gap, filler, ref ids @ ..] => Some(Some(Format {
                c1,
                n,
                count,
                gap,
                filler,
                ids: ids.to_vec(),
            })),
            _ => None,
        }
    }
}

impl Sheet {
    /// What a controller holds.
    pub fn of(model: &Model) -> Sheet {
        let boxes = model.boxes();
        let write = boxes.write.map(|(c1, id, _, held)| Write {
            c1,
            id: id.clone(),
            held: held.to_vec(),
        });
        Sheet {
            motor: model.motor(),
            cylinder: model.current_track(),
            seek: boxes.seek,
            index: boxes.index,
            command: boxes.command.to_vec(),
            reply: boxes.reply.to_vec(),
            data: boxes.data.to_vec(),
            lost: boxes.lost as u8,
            write,
            machine: model.machine(),
            format: model.format().cloned(),
        }
    }

    /// Sets the boxes of a controller. Its disk stays.
    pub fn set(&self, model: &mut Model) {
        let write = self.write.as_ref().map(|Write { c1, id, held }| {
            let left = id.len() - held.len();
            (*c1, id, left, held.as_slice())
        });
        let boxes = Boxes {
            seek: self.seek,
            lost: self.lost.into(),
            index: self.index,
            command: &self.command,
            reply: &self.reply,
            data: &self.data,
            write,
        };
        let format = self.format.clone();
        model.set(self.machine, self.motor, self.cylinder, &boxes, format);
    }

    /// The bytes of each box.
    pub fn boxes(&self) -> [Vec<u8>; BOXES] {
        let write = self.write.as_ref().map(Write::bytes);
        let format = self.format.as_ref().map(Format::bytes);
        [
            vec![self.motor.into()],
            vec![self.cylinder],
            vec![self.seek],
            self.index.to_be_bytes().to_vec(),
            self.command.clone(),
            self.reply.clone(),
            self.data.clone(),
            vec![self.lost],
            write.unwrap_or_default(),
            vec![self.machine.number()],
            format.unwrap_or_default(),
        ]
    }

    /// The sheet.
    pub fn bytes(&self) -> Vec<u8> {
        laid(&self.boxes())
    }

    /// The same of the version before, which says nothing of machine and Format.
    pub fn old_bytes(&self) -> Vec<u8> {
        framed(OLD_VERSION, &in_rows(&self.boxes()[..OLD_BOXES]))
    }

    /// What a sheet holds, or its refusal number with a transfer buffer of this
    /// length: 11, then 9.
    pub fn read(bytes: &[u8], transfer: usize) -> Result<Sheet, u8> {
        let sheet = boxes_in(bytes).and_then(Sheet::of_boxes);
        let sheet = sheet.filter(Sheet::is_possible).ok_or(BROKEN)?;
        match transfer_refusal(sheet.data.len(), transfer as u32) {
            Some(number) => Err(number),
            None => Ok(sheet),
        }
    }

    /// What boxes hold that have their lengths and ranges.
    fn of_boxes(boxes: [&[u8]; BOXES]) -> Option<Sheet> {
        let (&[motor @ 0..=1], &[cylinder]) = (boxes[MOTOR], boxes[CYLINDER]) else {
            return None;
        };
        let (&[seek @ 0..=2], &[high, low]) = (boxes[SEEK], boxes[INDEX]) else {
            return None;
        };
        let (&[lost], &[machine @ 0..=1]) = (boxes[LOST], boxes[MACHINE]) else {
            return None;
        };
        Some(Sheet {
            motor: motor == 1,
            cylinder,
            seek,
            index: u16::from_be_bytes([high, low]),
            command: boxes[COMMAND].to_vec(),
            reply: boxes[REPLY].to_vec(),
            data: boxes[DATA].to_vec(),
            lost,
            write: Write::read(boxes[WRITE])?,
            machine: Machine::ALL[usize::from(machine)],
            format: Format::read(boxes[FORMAT])?,
        })
    }

    /// Whether refusal 1 names nothing of it.
    fn is_possible(&self) -> bool {
        let write = self.write.as_ref();
        let format = self.format.as_ref();
        self.reply.len() <= MOST_REPLY
            && is_partial(&self.command)
            && self.lost <= MOST_LOST
            && write.is_none_or(|write| write.c1 & 3 == 0 && write.held.len() < write.id.len())
            && format.is_none_or(|format| format.c1 & 3 == 0 && format.left() > 0)
            && (format.is_none() || self.machine == Machine::DataSheet && write.is_none())
    }
}

/// Whether a command is shorter than its length. The Rust tells: a new controller
/// that is sent these bytes still waits for more of them.
pub fn is_partial(command: &[u8]) -> bool {
    let mut floppy = Floppy::new();
    command.iter().for_each(|&b| floppy.write_cmd(b));
    floppy.boxes().command == command
}

/// How many bytes the length of a box has.
fn width(number: usize) -> usize {
    if number == DATA { 4 } else { 2 }
}

/// Where the length of each box stands on a sheet of these boxes, and how wide it is.
pub fn lengths(boxes: &[Vec<u8>; BOXES]) -> [(usize, usize); BOXES] {
    let mut place = HEAD;
    std::array::from_fn(|number| {
        let found = (place, width(number));
        place += found.1 + boxes[number].len();
        found
    })
}

/// Lays boxes as a sheet, whatever is in them.
pub fn laid(boxes: &[Vec<u8>; BOXES]) -> Vec<u8> {
    framed(VERSION, &in_rows(boxes))
}

/// The first boxes of a sheet, or all, each behind its length.
fn in_rows(boxes: &[Vec<u8>]) -> Vec<u8> {
    let mut rows = Vec::new();
    for (number, bytes) in boxes.iter().enumerate() {
        let length = (bytes.len() as u32).to_be_bytes();
        rows.extend(&length[4 - width(number)..]);
        rows.extend(bytes);
    }
    rows
}

/// These bytes behind a version and their length.
pub fn framed(version: u8, rest: &[u8]) -> Vec<u8> {
    let length = (rest.len() as u32).to_be_bytes();
    [&[version], &length[..], rest].concat()
}

/// The boxes of a sheet, if its version and its lengths are right. Those that its version
/// does not have are of the Rust machine, and of no Format.
fn boxes_in(bytes: &[u8]) -> Option<[&[u8]; BOXES]> {
    let (&[version, ref length @ ..], mut rest) = bytes.split_first_chunk::<5>()?;
    let count = match version {
        OLD_VERSION => OLD_BOXES,
        VERSION => BOXES,
        _ => return None,
    };
    if number(length) != rest.len() {
        return None;
    }
    let mut boxes = [&[][..]; BOXES];
    boxes[MACHINE] = &[0];
    for (place, found) in boxes.iter_mut().enumerate().take(count) {
        let (length, behind) = rest.split_at_checked(width(place))?;
        (*found, rest) = behind.split_at_checked(number(length))?;
    }
    rest.is_empty().then_some(boxes)
}

/// The number in these bytes, the high one first.
fn number(bytes: &[u8]) -> usize {
    bytes.iter().fold(0, |sum, &b| sum << 8 | usize::from(b))
}
