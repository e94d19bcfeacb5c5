//! The two machines of request 2026-06. The data-sheet machine is told here by the words
//! of the request, around the Rust's controller: its Format, invalid commands and Sense
//! Interrupt Status. Everything else is the Rust's own code.

use std::ops::{Deref, DerefMut};

use raze::disk::Track;
use raze::floppy::{Boxes, Floppy, SectorId};

/// The first byte of Sense Interrupt Status.
const SENSE_INTERRUPT: u8 = 0x08;

/// The seek state Running, as the boxes have it.
const RUNNING: u8 = 1;

/// All that an invalid command replies, and a Sense Interrupt Status without a seek.
const INVALID: [u8; 1] = [0x80];

/// Which machine a controller is.
#[derive(Clone, Copy, Debug, Default, PartialEq, Eq)]
pub enum Machine {
    #[default]
    Rust,
    DataSheet,
}

impl Machine {
    /// Both, in the order of their numbers.
    pub const ALL: [Machine; 2] = [Machine::Rust, Machine::DataSheet];

    /// The number by which settings and sheets know it.
    pub fn number(self) -> u8 {
        self as u8
    }
}

/// A Format of the data-sheet machine, while it takes IDs.
#[derive(Clone, Debug, PartialEq, Eq)]
pub struct Format {
    pub c1: u8,
    pub n: u8,
    pub count: u8,
    pub gap: u8,
    pub filler: u8,
    /// C, H, R and N of one sector after another, as far as they were sent.
    pub ids: Vec<u8>,
}

impl Format {
    /// How many bytes it still takes.
    pub fn left(&self) -> usize {
        (4 * usize::from(self.count)).saturating_sub(self.ids.len())
    }

    /// The second byte of its command, and the four behind it.
    pub fn numbers(&self) -> [u8; 5] {
        [self.c1, self.n, self.count, self.gap, self.filler]
    }

    /// The head that it formats.
    pub fn head(&self) -> u8 {
        self.c1 >> 2 & 1
    }

    /// The same with one byte more.
    pub fn with(&self, b: u8) -> Format {
        let mut format = self.clone();
        format.ids.push(b);
        format
    }

    /// The track that it lays at this cylinder: the Rust's, with the IDs that were sent. So
    /// each sector is as long as the command's n says, whatever its own N is.
    pub fn track(&self, cylinder: u8) -> Track {
        let Format {
            n,
            count,
            gap,
            filler,
            ..
        } = *self;
        let mut track = Track::new_formatted(cylinder, self.head(), n, count, gap, filler);
        let (ids, _) = self.ids.as_chunks();
        for (sector, &[c, h, r, n]) in track.sectors_mut().iter_mut().zip(ids) {
            sector.id = SectorId { c, h, r, n };
        }
        track
    }

    fn reply(&self) -> [u8; 7] {
        [self.c1 & 7, 0, 0, 0, 0, 0, self.n]
    }
}

/// A controller that is one of the two machines.
pub struct Model {
    rust: Floppy,
    machine: Machine,
    /// While there is one, the Rust has a write of no sector in progress.
    format: Option<Format>,
}

/// All calls but those below are the Rust's.
impl Deref for Model {
    type Target = Floppy;

    fn deref(&self) -> &Floppy {
        &self.rust
    }
}

impl DerefMut for Model {
    fn deref_mut(&mut self) -> &mut Floppy {
        &mut self.rust
    }
}

impl Model {
    /// A new controller.
    pub fn new(machine: Machine) -> Model {
        Model {
            rust: Floppy::new(),
            machine,
            format: None,
        }
    }

    /// Which machine it is.
    pub fn machine(&self) -> Machine {
        self.machine
    }

    /// The Format that takes IDs now, if there is one.
    pub fn format(&self) -> Option<&Format> {
        self.format.as_ref()
    }

    /// The Rust's boxes. A Format that takes IDs is no write there.
    pub fn boxes(&self) -> Boxes<'_> {
        let boxes = self.rust.boxes();
        let write = boxes.write.filter(|_| self.format.is_none());
        Boxes { write, ..boxes }
    }

    /// Sets all of it but the disk.
    pub fn set(
        &mut self,
        machine: Machine,
        motor: bool,
        cylinder: u8,
        boxes: &Boxes<'_>,
        format: Option<Format>,
    ) {
        self.machine = machine;
        self.rust.set_boxes(motor, cylinder, boxes);
        if format.is_some() {
            self.rust.set_writing(true);
        }
        self.format = format;
    }

    /// Sends a byte. Those of a Format's IDs, and the one before them, do not reach the Rust.
    pub fn write_cmd(&mut self, b: u8) {
        if let Some(format) = self.format.take() {
            return self.go_on(format.with(b));
        }
        if let Some(format) = self.begins(b) {
            self.rust.drop_command();
            return self.go_on(format);
        }
        let invalid = self.is_invalid(b);
        self.rust.write_cmd(b);
        if invalid {
            self.rust.set_reply(&INVALID);
        }
    }

    /// The Format whose IDs come behind this byte, if they do.
    pub fn begins(&self, b: u8) -> Option<Format> {
        let Boxes { command, write, .. } = self.boxes();
        if self.machine == Machine::Rust || write.is_some() || self.format.is_some() {
            return None;
        }
        self.disk()?;
        let [first, c1, n, count, gap] = *command else {
            return None;
        };
        let has_ids = first & 0xbf == 0x0d && c1 & 3 == 0 && count > 0;
        has_ids.then(|| Format {
            c1,
            n,
            count,
            gap,
            filler: b,
            ids: Vec::new(),
        })
    }

    /// The Format takes more bytes, or it ends.
    fn go_on(&mut self, format: Format) {
        let pending = format.left() > 0;
        self.rust.set_writing(pending);
        if pending {
            self.format = Some(format);
        } else {
            self.end(&format);
        }
    }

    /// Lays the track on the disk that is in, if one is, and replies.
    fn end(&mut self, format: &Format) {
        let cylinder = self.current_track();
        if let Some(disk) = self.rust.disk_mut() {
            disk.set_track(format.head(), cylinder, format.track(cylinder));
        }
        self.rust.set_reply(&format.reply());
    }

    /// Whether the byte is a command that replies 0x80 alone.
    fn is_invalid(&self, b: u8) -> bool {
        let boxes = self.rust.boxes();
        let is_first = boxes.write.is_none() && boxes.command.is_empty();
        let is_sense = b == SENSE_INTERRUPT && boxes.seek != RUNNING;
        self.machine == Machine::DataSheet && is_first && (is_sense || is_other(b))
    }
}

/// Whether a first byte is in the row "other" of document 01. The Rust tells: a new
/// controller waits for nothing behind it, and has no reply.
pub fn is_other(first: u8) -> bool {
    let mut floppy = Floppy::new();
    floppy.write_cmd(first);
    floppy.boxes().command.is_empty() && floppy.unread().1 == 0
}
