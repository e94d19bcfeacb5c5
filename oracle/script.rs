//! The stream of scripts. A script is a record of the stream of images, whose
//! image is empty for a fresh disk; two bytes (the lower first) for the number of
//! its operations; and the operations, each a byte for its kind and its fields.

use std::fmt;
use std::io::{self, Write};

use crate::stream::{self, LARGEST_DISK, Record};

/// Where a track is: side and cylinder.
pub type Place = [u8; 2];

/// The ID of a sector: C, H, R and N.
pub type Id = [u8; 4];

/// What is done to a disk, or asked of it.
#[derive(Clone)]
pub enum Operation {
    /// The track at the place becomes a formatted one.
    Format {
        place: Place,
        n: u8,
        count: u8,
        gap: u8,
        filler: u8,
    },
    /// The sector takes new bytes, which follow from their number and the seed.
    Save {
        place: Place,
        id: Id,
        length: u16,
        seed: u8,
    },
    /// The sector and those behind it, up to number `eot`, are read into a
    /// transfer buffer with this room.
    Read {
        place: Place,
        id: Id,
        eot: u8,
        room: u32,
    },
    /// The ID at this index of the track is asked for.
    Id { place: Place, index: u16 },
}

impl Operation {
    fn bytes(&self) -> Vec<u8> {
        match *self {
            Operation::Format {
                place,
                n,
                count,
                gap,
                filler,
            } => [&[1], place.as_slice(), &[n, count, gap, filler]].concat(),
            Operation::Save {
                place,
                id,
                length,
                seed,
            } => [&[2], place.as_slice(), &id, &length.to_le_bytes(), &[seed]].concat(),
            Operation::Read {
                place,
                id,
                eot,
                room,
            } => [&[3], place.as_slice(), &id, &[eot], &room.to_le_bytes()].concat(),
            Operation::Id { place, index } => {
                [&[4], place.as_slice(), &index.to_le_bytes()].concat()
            }
        }
    }
}

/// The fields as they stand before the outcome.
impl fmt::Display for Operation {
    fn fmt(&self, f: &mut fmt::Formatter<'_>) -> fmt::Result {
        match *self {
            Operation::Format {
                place: [side, cylinder],
                n,
                count,
                gap,
                filler,
            } => write!(f, "format {side} {cylinder} {n} {count} {gap} {filler}"),
            Operation::Save {
                place: [side, cylinder],
                id: [c, h, r, n],
                length,
                seed,
            } => write!(f, "save {side} {cylinder} {c} {h} {r} {n} {length} {seed}"),
            Operation::Read {
                place: [side, cylinder],
                id: [c, h, r, n],
                eot,
                room,
            } => write!(f, "read {side} {cylinder} {c} {h} {r} {n} {eot} {room}"),
            Operation::Id {
                place: [side, cylinder],
                index,
            } => write!(f, "id {side} {cylinder} {index}"),
        }
    }
}

/// A named script: the image of its disk, and its operations.
pub struct Script {
    record: Record,
    operations: Vec<Operation>,
}

impl Script {
    /// The script of that record and these operations, or what is wrong with them.
    pub fn new(record: Record, operations: Vec<Operation>) -> Result<Script, String> {
        let name = record.name();
        if record.image().len() > LARGEST_DISK {
            return Err(format!("the image of {name} is over {LARGEST_DISK} bytes"));
        }
        if operations.len() > u16::MAX.into() {
            return Err(format!("{name} has over {} operations", u16::MAX));
        }
        Ok(Script { record, operations })
    }

    /// The name of the script.
    pub fn name(&self) -> &str {
        self.record.name()
    }

    /// The image of its disk, where that is not a fresh one.
    pub fn image(&self) -> Option<&[u8]> {
        Some(self.record.image()).filter(|image| !image.is_empty())
    }

    /// What it does, in order.
    pub fn operations(&self) -> &[Operation] {
        &self.operations
    }
}

/// Writes one script to the stream.
pub fn write(script: &Script, out: &mut impl Write) -> io::Result<()> {
    stream::write(&script.record, out)?;
    out.write_all(&(script.operations.len() as u16).to_le_bytes())?;
    let mut operations = script.operations.iter();
    operations.try_for_each(|operation| out.write_all(&operation.bytes()))
}

/// Reads every script of a stream, or says where and how it is broken.
pub fn read(stream: &[u8]) -> Result<Vec<Script>, String> {
    stream::read_all(stream, read_script)
}

fn read_script(stream: &mut &[u8]) -> Result<Script, String> {
    let record = stream::read_record(stream)?;
    let number = u16::from_le_bytes(stream::take_array(stream, "number of operations")?);
    let operations = (0..number).map(|_| read_operation(stream));
    let operations = operations.collect::<Result<_, _>>()?;
    Script::new(record, operations)
}

fn read_operation(stream: &mut &[u8]) -> Result<Operation, String> {
    let [kind] = fields(stream)?;
    let place = fields(stream)?;
    match kind {
        1 => {
            let [n, count, gap, filler] = fields(stream)?;
            Ok(Operation::Format {
                place,
                n,
                count,
                gap,
                filler,
            })
        }
        2 => {
            let id = fields(stream)?;
            let [low, high, seed] = fields(stream)?;
            Ok(Operation::Save {
                place,
                id,
                length: u16::from_le_bytes([low, high]),
                seed,
            })
        }
        3 if place[0] > 1 => Err(format!("a read of side {}", place[0])),
        3 => {
            let id = fields(stream)?;
            let [eot] = fields(stream)?;
            Ok(Operation::Read {
                place,
                id,
                eot,
                room: u32::from_le_bytes(fields(stream)?),
            })
        }
        4 => Ok(Operation::Id {
            place,
            index: u16::from_le_bytes(fields(stream)?),
        }),
        _ => Err(format!("no operation is of kind {kind}")),
    }
}

fn fields<const N: usize>(stream: &mut &[u8]) -> Result<[u8; N], String> {
    stream::take_array(stream, "operations")
}
