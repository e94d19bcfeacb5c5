//! What document 01 adds to the Rust: which sent bytes look at the store, and
//! which of them are refused. All of it is told from the Rust's own state, and where
//! there is one from the Format of the data-sheet machine.

use raze::disk::{Disk, Sector, Track};
use raze::floppy::SectorId;

use crate::capacities::{Totals, transfer_refusal};
use crate::datasheet::Model;
use crate::found::Match;

/// What a byte has the store looked at for.
pub enum Look {
    /// Read Data or Read Deleted, from this sector up to a number.
    Read { head: u8, id: SectorId, eot: u8 },
    /// A Write Data begins, to this sector.
    Begin { head: u8, id: SectorId },
    /// Read ID.
    Id,
    /// Format, to this track.
    Format(Track),
    /// The last byte of a write, to this sector.
    Save { head: u8, id: SectorId },
}

impl Look {
    /// What it is, in words.
    pub fn name(&self) -> &'static str {
        match self {
            Look::Read { .. } => "that was a Read Data",
            Look::Begin { .. } => "that was a Write Data",
            Look::Id => "that was a Read ID",
            Look::Format(_) => "that was a Format",
            Look::Save { .. } => "that was the last byte of a write",
        }
    }

    /// The head and the ID of the sector that it searches for, if it searches for one.
    fn wanted(&self) -> Option<(u8, &SectorId)> {
        match self {
            Look::Read { head, id, .. } | Look::Begin { head, id } | Look::Save { head, id } => {
                Some((*head, id))
            }
            Look::Id | Look::Format(_) => None,
        }
    }

    /// Which sector it finds, which the word tells: of a read its first one.
    pub fn finds(&self, rust: &Model) -> Option<Match> {
        let (head, id) = self.wanted()?;
        Match::find(rust.disk()?, head, rust.current_track(), id)
    }
}

/// The head that a command's second byte names.
fn head_of(c1: u8) -> u8 {
    c1 >> 2 & 1
}

/// What the store is looked at for when this byte is sent, if it is. It takes a
/// disk in the drive, and the last byte of a command for drive 0, of a write or of the
/// IDs of a Format. The byte that IDs come behind looks at nothing.
pub fn look(rust: &Model, b: u8) -> Option<Look> {
    rust.disk()?;
    let cylinder = rust.current_track();
    if let Some(format) = rust.format() {
        return (format.left() == 1).then(|| Look::Format(format.with(b).track(cylinder)));
    }
    if rust.begins(b).is_some() {
        return None;
    }
    let boxes = rust.boxes();
    if let Some((c1, id, left, _)) = boxes.write {
        let (head, id) = (head_of(c1), id.clone());
        return (left == 1).then_some(Look::Save { head, id });
    }
    ended(&[boxes.command, &[b]].concat(), cylinder)
}

/// What a command looks at the store for, if it is one for drive 0 with all its bytes.
fn ended(command: &[u8], cylinder: u8) -> Option<Look> {
    match *command {
        [first, c1, c, h, r, n, eot, _, _] if c1 & 3 == 0 => {
            let (head, id) = (head_of(c1), SectorId { c, h, r, n });
            match (first & 0x1f, first & 0x3f) {
                (0x06 | 0x0c, _) => Some(Look::Read { head, id, eot }),
                (_, 0x05) => Some(Look::Begin { head, id }),
                _ => None,
            }
        }
        [first, c1] if c1 & 3 == 0 && first & 0xbf == 0x0a => Some(Look::Id),
        [first, c1, n, count, gap, filler] if c1 & 3 == 0 && first & 0xbf == 0x0d => {
            let head = head_of(c1);
            let track = Track::new_formatted(cylinder, head, n, count, gap, filler);
            Some(Look::Format(track))
        }
        _ => None,
    }
}

/// How much of each buffer is lent to a call, and whether the table is a good one.
pub struct Lent {
    pub good_table: bool,
    pub data: usize,
    pub transfer: usize,
    /// How many bytes the last Read Data or the last sheet laid in the transfer buffer.
    pub filled: usize,
}

impl Lent {
    /// Whether a call that is lent the transfer buffer finds its data inside.
    pub fn holds_data(&self) -> bool {
        transfer_refusal(self.filled, self.transfer as u32).is_none()
    }

    /// The refusal number of a byte that looks at the store for this, or at
    /// nothing; 0 where it is taken.
    pub fn refusal(&self, rust: &Model, look: Option<&Look>) -> u8 {
        if !self.holds_data() {
            return 1;
        }
        let (Some(look), Some(disk)) = (look, rust.disk()) else {
            return 0;
        };
        if !self.good_table || Totals::of(disk).refusal_in(self.data).is_some() {
            return 2;
        }
        let cylinder = rust.current_track();
        match look {
            Look::Begin { .. } | Look::Id => None,
            Look::Format(track) => Totals::with(disk, track).refusal_in(self.data),
            Look::Save { head, id } => self.save_refusal(disk, *head, cylinder, id),
            Look::Read { head, id, eot } => {
                let total = read_total(disk, *head, cylinder, id, *eot);
                total.and_then(|total| transfer_refusal(total, self.transfer as u32))
            }
        }
        .unwrap_or(0)
    }

    fn save_refusal(&self, disk: &Disk, head: u8, cylinder: u8, id: &SectorId) -> Option<u8> {
        let sector = find(disk, head, cylinder, id)?;
        let mut totals = Totals::of(disk);
        totals.bytes = totals.bytes - sector.data.len() + id.len();
        totals.refusal_in(self.data)
    }
}

/// The sector that the Rust finds there.
pub fn find<'a>(disk: &'a Disk, side: u8, cylinder: u8, id: &SectorId) -> Option<&'a Sector> {
    disk.get_track(side, cylinder)?.get_sector(id)
}

/// How many bytes a Read Data gives, if its first sector is found.
fn read_total(disk: &Disk, head: u8, cylinder: u8, id: &SectorId, eot: u8) -> Option<usize> {
    let first = find(disk, head, cylinder, id)?.data.len();
    let numbers = (id.r..=eot).skip(1);
    let others = numbers.map_while(|r| find(disk, head, cylinder, &SectorId { r, ..id.clone() }));
    Some(first + others.map(|sector| sector.data.len()).sum::<usize>())
}
