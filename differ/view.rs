//! The bytes of a controller, seen as the boxes that the Rust has.

use std::fmt;

use raze::floppy::SectorId;

use crate::datasheet::Model;

/// Where the fields of a controller stand. The goal of a write is the ID of a sector, or n,
/// count, gap and filler of a Format: its kind tells which.
pub const COUNT: usize = 9;
pub const REPLY: usize = 10;
pub const PLACE: usize = 17;
pub const FILL: usize = 18;
pub const FROM: usize = 19;
pub const UNTIL: usize = 23;
pub const LOST: usize = 27;
pub const MOTOR: usize = 28;
pub const INDEX: usize = 29;
pub const WRITE: usize = 31;
pub const C1: usize = 32;
pub const GOAL: usize = 33;
pub const TAKEN: usize = 37;
pub const CYLINDER: usize = 39;
pub const SEEK: usize = 40;
pub const DISK: usize = 41;
pub const SETTING: usize = 42;
pub const KIND: usize = 43;
pub const HELD: usize = 44;

/// Where the count of a Format stands.
pub const SECTORS: usize = GOAL + 1;

/// The kinds of a write in progress: of a sector, or of a track that is formatted.
pub const SECTOR: u8 = 0;
pub const TRACK: u8 = 1;

/// The bytes of a controller.
pub struct View<'a>(pub &'a [u8]);

impl View<'_> {
    fn word(&self, at: usize) -> usize {
        u16::from_le_bytes([self.0[at], self.0[at + 1]]).into()
    }

    fn long(&self, at: usize) -> usize {
        self.word(at) | self.word(at + 2) << 16
    }

    /// The bytes of a command that is partly sent.
    pub fn command(&self) -> &[u8] {
        self.0[..COUNT].get(..self.0[COUNT].into()).unwrap_or(&[])
    }

    /// What is unread of the reply.
    pub fn reply(&self) -> &[u8] {
        let (place, fill) = (self.0[PLACE].into(), self.0[FILL].into());
        self.0[REPLY..PLACE].get(place..fill).unwrap_or(&[])
    }

    /// Where the unread data lie in the transfer buffer, from and until.
    pub fn data(&self) -> (usize, usize) {
        (self.long(FROM), self.long(UNTIL))
    }

    /// The kind of a write in progress, and the bytes that it has, if there is one.
    pub fn held(&self) -> Option<(u8, &[u8])> {
        let held = self.0[HELD..].get(..self.word(TAKEN)).unwrap_or(&[]);
        (self.0[WRITE] == 1).then_some((self.0[KIND], held))
    }

    /// The first box that is not as the Rust has it, or the machine that is told of it.
    pub fn differs(&self, rust: &Model) -> Option<&'static str> {
        let boxes = rust.boxes();
        let (from, until) = self.data();
        let checks = [
            ("machine", self.0[SETTING] == rust.machine().number()),
            ("cylinder", self.0[CYLINDER] == rust.current_track()),
            ("motor", self.0[MOTOR] == rust.motor().into()),
            ("disk", self.0[DISK] == rust.disk().is_some().into()),
            ("seek state", self.0[SEEK] == boxes.seek),
            ("lost count", u32::from(self.0[LOST]) == boxes.lost),
            ("Read ID index", self.word(INDEX) == boxes.index.into()),
            ("command", self.command() == boxes.command),
            ("reply", self.reply() == boxes.reply),
            (
                "number of unread data",
                until.checked_sub(from) == Some(boxes.data.len()),
            ),
            ("write in progress", self.writes_as(rust)),
        ];
        let wrong = checks.into_iter().find(|&(_, same)| !same);
        wrong.map(|(name, _)| name)
    }

    /// The c1 and the goal of a write.
    fn numbers(&self) -> &[u8] {
        &self.0[C1..TAKEN]
    }

    fn writes_as(&self, rust: &Model) -> bool {
        match (self.held(), rust.boxes().write, rust.format()) {
            (None, None, None) => true,
            (Some((SECTOR, held)), Some((c1, id, left, bytes)), None) => {
                self.numbers() == of_sector(c1, id)
                    && left + bytes.len() == id.len()
                    && held == bytes
            }
            (Some((TRACK, held)), None, Some(format)) => {
                self.numbers() == format.numbers() && held == format.ids
            }
            _ => false,
        }
    }
}

/// The c1 and the goal of a write of this sector.
fn of_sector(c1: u8, id: &SectorId) -> [u8; 5] {
    [c1, id.c, id.h, id.r, id.n]
}

/// The boxes in words.
impl fmt::Display for View<'_> {
    fn fmt(&self, f: &mut fmt::Formatter<'_>) -> fmt::Result {
        let (from, until) = self.data();
        write!(
            f,
            "machine {} cylinder {} motor {} disk {} seek {} lost {} index {} command {:02x?} \
             reply {:02x?} data {from} to {until} ",
            self.0[SETTING],
            self.0[CYLINDER],
            self.0[MOTOR],
            self.0[DISK],
            self.0[SEEK],
            self.0[LOST],
            self.word(INDEX),
            self.command(),
            self.reply(),
        )?;
        match self.held() {
            None => write!(f, "write none"),
            Some((SECTOR, held)) => write_sector(f, self.numbers(), held),
            Some((_, held)) => write_track(f, self.numbers(), held),
        }
    }
}

/// The Rust's boxes in the same words.
pub struct Rust<'a>(pub &'a Model);

impl fmt::Display for Rust<'_> {
    fn fmt(&self, f: &mut fmt::Formatter<'_>) -> fmt::Result {
        let boxes = self.0.boxes();
        write!(
            f,
            "machine {} cylinder {} motor {} disk {} seek {} lost {} index {} command {:02x?} \
             reply {:02x?} data {} unread ",
            self.0.machine().number(),
            self.0.current_track(),
            u8::from(self.0.motor()),
            u8::from(self.0.disk().is_some()),
            boxes.seek,
            boxes.lost,
            boxes.index,
            boxes.command,
            boxes.reply,
            boxes.data.len(),
        )?;
        match (boxes.write, self.0.format()) {
            (Some((c1, id, _, held)), _) => write_sector(f, &of_sector(c1, id), held),
            (None, Some(format)) => write_track(f, &format.numbers(), &format.ids),
            (None, None) => write!(f, "write none"),
        }
    }
}

fn write_sector(f: &mut fmt::Formatter<'_>, numbers: &[u8], held: &[u8]) -> fmt::Result {
    let length = held.len();
    write!(f, "write c1 and id {numbers:02x?} held {length} bytes")
}

fn write_track(f: &mut fmt::Formatter<'_>, numbers: &[u8], ids: &[u8]) -> fmt::Result {
    write!(f, "format c1 and numbers {numbers:02x?} ids {ids:02x?}")
}
