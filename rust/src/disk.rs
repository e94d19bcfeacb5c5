//! A disk: the table and the data buffer in which the library keeps it.

use std::fmt;

use crate::{Match, Refusal, calls};

/// Why a question to a disk is not refused: what a load or a fresh format lays is accepted, and what came from a host
/// was judged; after any calls it still is: `load-left`, `fresh-left`, `bytes-unbroken` (docs/PROMISES.md).
const HOLDS: &str = "a disk's table and data hold a disk: the library has laid or judged them";

/// The ID of a sector, as it stands on the track. Two sectors of a track may have the same ID; the first counts, and a
/// [`Match`] says how many there are.
#[derive(Clone, Copy, Debug, PartialEq, Eq, Hash)]
pub struct SectorId {
    /// The cylinder that it names, which need not be that of its track.
    pub c: u8,
    /// The head that it names.
    pub h: u8,
    /// The sector's number.
    pub r: u8,
    /// The size: 128, 256, 512 or 1,024 bytes, by the lowest two bits.
    pub n: u8,
}

/// A disk. It is changed only by a [`Controller`](crate::Controller) in whose drive it is.
///
/// It has a data room, the most bytes that its sectors may have in all. By default that is
/// [`LARGEST_ROOM`](Disk::LARGEST_ROOM), in which every disk fits that the library takes.
#[derive(Clone)]
pub struct Disk {
    table: Vec<u8>,
    data: Vec<u8>,
}

impl Disk {
    /// The largest data room that a disk can use, in bytes.
    pub const LARGEST_ROOM: usize = 1_048_576;

    /// A freshly formatted disk: cylinders 0 to 39 of side 0, nine sectors each with 512 bytes E5.
    pub fn new_formatted() -> Disk {
        Disk::new_formatted_with_room(Disk::LARGEST_ROOM)
            .expect("a fresh disk fits into the largest room")
    }

    /// A freshly formatted disk with this data room, or [`LARGEST_ROOM`](Disk::LARGEST_ROOM) if that is less.
    /// It takes 184,320 bytes; with less it is refused with [`Refusal::NoRoom`].
    pub fn new_formatted_with_room(room: usize) -> Result<Disk, Refusal> {
        let mut disk = Disk::blank(room);
        calls::new_formatted(&mut disk.table, &mut disk.data)?;
        Ok(disk)
    }

    /// The disk of a DSK image, normal or extended.
    pub fn from_image(image: &[u8]) -> Result<Disk, Refusal> {
        Disk::from_image_with_room(image, Disk::LARGEST_ROOM)
    }

    /// The disk of a DSK image with this data room, or [`LARGEST_ROOM`](Disk::LARGEST_ROOM) if that is less.
    pub fn from_image_with_room(image: &[u8], room: usize) -> Result<Disk, Refusal> {
        let mut disk = Disk::blank(room);
        calls::load(image, &mut disk.table, &mut disk.data)?;
        Ok(disk)
    }

    /// The disk whose [`table`](Disk::table) and [`data`](Disk::data) these are, as when a session is taken up
    /// again. Its room is the length of `data`, or [`LARGEST_ROOM`](Disk::LARGEST_ROOM) if that is less.
    /// [`Refusal::BadStore`] where they do not hold a disk.
    pub fn from_parts(table: Vec<u8>, mut data: Vec<u8>) -> Result<Disk, Refusal> {
        data.truncate(Disk::LARGEST_ROOM);
        calls::geometry(&table, &data)?;
        Ok(Disk { table, data })
    }

    /// The disk as an extended DSK image, to go home: [`from_image`](Disk::from_image) of it gives an equal disk.
    ///
    /// [`Refusal::NoImage`] where the disk has none, as where an image that was loaded had its tracks out of order, or
    /// a Format made a track with more than 29 sectors. [`table`](Disk::table) and [`data`](Disk::data) still have it.
    pub fn to_image(&self) -> Result<Vec<u8>, Refusal> {
        let mut image = vec![0; calls::image_length(&self.table, &self.data)?];
        calls::write_image(&self.table, &self.data, &mut image)?;
        Ok(image)
    }

    /// Buffers for a disk.
    fn blank(room: usize) -> Disk {
        Disk {
            table: vec![0; calls::table_length()],
            data: vec![0; room.min(Disk::LARGEST_ROOM)],
        }
    }

    /// The data room.
    pub fn room(&self) -> usize {
        self.data.len()
    }

    /// Gives the disk this data room, or [`LARGEST_ROOM`](Disk::LARGEST_ROOM) if that is less. Refused with
    /// [`Refusal::BadStore`] where its sectors have more bytes.
    pub fn set_room(&mut self, room: usize) -> Result<(), Refusal> {
        let room = room.min(Disk::LARGEST_ROOM);
        if room < self.room() {
            calls::geometry(&self.table, &self.data[..room])?;
        }
        self.data.resize(room, 0);
        Ok(())
    }

    /// The greatest cylinder of side 0, and that of the other sides; 0 where there is none.
    pub fn geometry(&self) -> (u8, u8) {
        calls::geometry(&self.table, &self.data).expect(HOLDS)
    }

    /// Whether there is a sector with this ID on the first track of that side and cylinder, and which of the track it
    /// is.
    ///
    /// ```
    /// use kafondiye::{Disk, Match, SectorId};
    ///
    /// let disk = Disk::new_formatted();
    /// let id = SectorId { c: 0, h: 0, r: 9, n: 2 };
    /// assert_eq!(disk.has_sector(0, 0, id), Some(Match { place: 9, count: 1 }));
    /// assert_eq!(disk.has_sector(1, 0, id), None);
    /// ```
    pub fn has_sector(&self, side: u8, cylinder: u8, id: SectorId) -> Option<Match> {
        calls::has_sector(&self.table, &self.data, side, cylinder, id).expect(HOLDS)
    }

    /// The bytes of the first sector with this ID on the first track of that side and cylinder. A sector that is
    /// there may have none.
    pub fn sector(&self, side: u8, cylinder: u8, id: SectorId) -> Option<&[u8]> {
        calls::sector(&self.table, &self.data, side, cylinder, id)
    }

    /// The table, in the layout of `docs/STORE.md`. Its length is always the same.
    pub fn table(&self) -> &[u8] {
        &self.table
    }

    /// The data buffer, as long as the data room: the bytes of the sectors from its start, in the order of the
    /// table, and behind them bytes that do not count.
    pub fn data(&self) -> &[u8] {
        &self.data
    }

    /// Both buffers, for the call that may change them.
    pub(crate) fn buffers(&mut self) -> (&mut [u8], &mut [u8]) {
        (&mut self.table, &mut self.data)
    }
}

/// Shows what a disk is and nothing of what is on it.
impl fmt::Debug for Disk {
    fn fmt(&self, f: &mut fmt::Formatter<'_>) -> fmt::Result {
        f.debug_struct("Disk")
            .field("geometry", &self.geometry())
            .field("room", &self.room())
            .finish_non_exhaustive()
    }
}
