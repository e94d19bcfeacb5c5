//! The stream of sessions. A session is a record of the stream of images, whose
//! image is that of disk A; the image of disk B behind its length; and the calls
//! behind their length. An empty image stands for a fresh disk. A call is a byte
//! for its kind, two bytes for a number, two for the length of what follows (the
//! lower first), and that many bytes.

use std::fmt;
use std::io::{self, Write};

use crate::dump;
use crate::stream::{self, LARGEST_DISK, Record};

/// More bytes are not printed one by one.
const MOST_PRINTED: usize = 24;

/// What the names of sessions that the Rust cannot answer begin with.
const REFUSAL: &str = "refusal-";

/// Which disk is in the drive.
#[derive(Clone, Copy, PartialEq)]
pub enum Slot {
    Empty,
    A,
    B,
}

/// What is done to the controller, or asked of it.
#[derive(Clone)]
pub enum Call {
    /// A disk is put in, or the drive emptied.
    Put(Slot),
    /// The motor is switched.
    Motor(bool),
    /// The status is read so many times.
    Status(u16),
    /// The data port is read so many times.
    Read(u16),
    /// The bytes are sent so many times.
    Send { times: u16, bytes: Vec<u8> },
    /// Motor, track and disk are asked for.
    Ask,
    /// What the ports do not show at once is asked for.
    Boxes,
    /// Of a buffer, the first so many bytes are lent from now on.
    Lend { buffer: u16, length: u32 },
    /// A byte of the table is changed.
    Table { place: u16, byte: u8 },
    /// A number of the controller is changed.
    Number { which: u16, value: u32 },
    /// The controller is written out as a sheet and read back from it.
    Sheet,
    /// These bytes are read as a sheet.
    Resume(Vec<u8>),
}

impl Call {
    fn bytes(&self) -> Vec<u8> {
        let (kind, number, bytes) = match self {
            Call::Put(slot) => (1, *slot as u16, Vec::new()),
            Call::Motor(on) => (2, u16::from(*on), Vec::new()),
            Call::Status(times) => (3, *times, Vec::new()),
            Call::Read(times) => (4, *times, Vec::new()),
            Call::Send { times, bytes } => (5, *times, bytes.clone()),
            Call::Ask => (6, 0, Vec::new()),
            Call::Boxes => (7, 0, Vec::new()),
            Call::Lend { buffer, length } => (8, *buffer, length.to_le_bytes().to_vec()),
            Call::Table { place, byte } => (9, *place, vec![*byte]),
            Call::Number { which, value } => (10, *which, value.to_le_bytes().to_vec()),
            Call::Sheet => (11, 0, Vec::new()),
            Call::Resume(sheet) => (12, 0, sheet.clone()),
        };
        let length = bytes.len() as u16;
        let number = number.to_le_bytes();
        [&[kind], number.as_slice(), &length.to_le_bytes(), &bytes].concat()
    }

    fn read(kind: u8, number: u16, bytes: &[u8]) -> Option<Call> {
        let value = || bytes.try_into().ok().map(u32::from_le_bytes);
        Some(match (kind, number, bytes) {
            (1, 0, []) => Call::Put(Slot::Empty),
            (1, 1, []) => Call::Put(Slot::A),
            (1, 2, []) => Call::Put(Slot::B),
            (2, 0 | 1, []) => Call::Motor(number == 1),
            (3, times, []) => Call::Status(times),
            (4, times, []) => Call::Read(times),
            (5, times, [_, ..]) => Call::Send {
                times,
                bytes: bytes.to_vec(),
            },
            (6, 0, []) => Call::Ask,
            (7, 0, []) => Call::Boxes,
            (8, buffer @ 1..=3, _) => Call::Lend {
                buffer,
                length: value()?,
            },
            (9, place, &[byte]) => Call::Table { place, byte },
            (10, which @ 1..=8, _) => Call::Number {
                which,
                value: value()?,
            },
            (11, 0, []) => Call::Sheet,
            (12, 0, _) => Call::Resume(bytes.to_vec()),
            _ => return None,
        })
    }
}

/// The call as it stands before its answer.
impl fmt::Display for Call {
    fn fmt(&self, f: &mut fmt::Formatter<'_>) -> fmt::Result {
        match self {
            Call::Put(Slot::Empty) => write!(f, "put none"),
            Call::Put(Slot::A) => write!(f, "put a"),
            Call::Put(Slot::B) => write!(f, "put b"),
            Call::Motor(on) => write!(f, "motor {}", if *on { "on" } else { "off" }),
            Call::Status(times) => write!(f, "status {times}"),
            Call::Read(times) => write!(f, "read {times}"),
            Call::Send { times, bytes } => {
                write!(f, "send {times} {}{}", bytes.len(), Shown(bytes))
            }
            Call::Ask => write!(f, "ask"),
            Call::Boxes => write!(f, "boxes"),
            Call::Lend { buffer, length } => write!(f, "lend {buffer} {length}"),
            Call::Table { place, byte } => write!(f, "table {place} {byte}"),
            Call::Number { which, value } => write!(f, "number {which} {value}"),
            Call::Sheet => write!(f, "sheet"),
            Call::Resume(sheet) => write!(f, "resume {}{}", sheet.len(), Shown(sheet)),
        }
    }
}

/// Bytes as they are printed: one by one in hex, or their check number where they
/// are many.
pub struct Shown<'a>(pub &'a [u8]);

impl fmt::Display for Shown<'_> {
    fn fmt(&self, f: &mut fmt::Formatter<'_>) -> fmt::Result {
        if self.0.len() > MOST_PRINTED {
            return write!(f, " check {}", dump::check(self.0));
        }
        write!(f, ":{}", Hex(self.0))
    }
}

/// Bytes in hex, each behind a space.
pub struct Hex<'a>(pub &'a [u8]);

impl fmt::Display for Hex<'_> {
    fn fmt(&self, f: &mut fmt::Formatter<'_>) -> fmt::Result {
        self.0.iter().try_for_each(|byte| write!(f, " {byte:02x}"))
    }
}

/// A named session: the images of disks A and B, and the calls.
pub struct Session {
    a: Record,
    b: Vec<u8>,
    calls: Vec<Call>,
}

impl Session {
    /// The session of that name, with these images and calls, or what is wrong
    /// with them.
    pub fn new(name: String, [a, b]: [Vec<u8>; 2], calls: Vec<Call>) -> Result<Session, String> {
        if a.len().max(b.len()) > LARGEST_DISK {
            return Err(format!("an image of {name} is over {LARGEST_DISK} bytes"));
        }
        let session = Session {
            a: Record::new(name, a)?,
            b,
            calls,
        };
        if session.call_bytes().len() > LARGEST_DISK {
            return Err(format!(
                "the calls of {} are over {LARGEST_DISK} bytes",
                session.name()
            ));
        }
        Ok(session)
    }

    /// The name of the session.
    pub fn name(&self) -> &str {
        self.a.name()
    }

    /// The images of disks A and B, where they are not fresh ones.
    pub fn images(&self) -> [Option<&[u8]>; 2] {
        [self.a.image(), &self.b].map(|image| Some(image).filter(|image| !image.is_empty()))
    }

    /// What is called, in order.
    pub fn calls(&self) -> &[Call] {
        &self.calls
    }

    /// Whether it is one of those that the Rust cannot answer, because it knows no
    /// refusals.
    pub fn is_refusal(&self) -> bool {
        self.name().starts_with(REFUSAL)
    }

    fn call_bytes(&self) -> Vec<u8> {
        self.calls.iter().flat_map(Call::bytes).collect()
    }
}

/// Writes one session to the stream.
pub fn write(session: &Session, out: &mut impl Write) -> io::Result<()> {
    stream::write(&session.a, out)?;
    stream::write_block(&session.b, out)?;
    stream::write_block(&session.call_bytes(), out)
}

/// Reads every session of a stream, or says where and how it is broken.
pub fn read(stream: &[u8]) -> Result<Vec<Session>, String> {
    stream::read_all(stream, read_session)
}

fn read_session(stream: &mut &[u8]) -> Result<Session, String> {
    let record = stream::read_record(stream)?;
    let b = stream::take_block(stream, "second image")?;
    let mut block = stream::take_block(stream, "calls")?;
    let mut calls = Vec::new();
    while !block.is_empty() {
        calls.push(read_call(&mut block)?);
    }
    let images = [record.image().to_vec(), b.to_vec()];
    Session::new(record.name().to_owned(), images, calls)
}

fn read_call(block: &mut &[u8]) -> Result<Call, String> {
    let [kind, low, high] = stream::take_array(block, "calls")?;
    let length = u16::from_le_bytes(stream::take_array(block, "calls")?);
    let bytes = stream::take(block, length.into(), "calls")?;
    let number = u16::from_le_bytes([low, high]);
    Call::read(kind, number, bytes)
        .ok_or_else(|| format!("no call of kind {kind} has number {number} and {length} bytes"))
}
