//! Why the library refuses a call.

use std::error::Error;
use std::fmt;

/// Why a call was refused. Whatever the reason, the call has changed nothing.
///
/// The numbers are those of the exported calls. Number 10 is missing, because no call answers it: it belongs to a
/// program that lists images.
#[derive(Clone, Copy, Debug, PartialEq, Eq, Hash)]
#[non_exhaustive]
#[repr(u8)]
pub enum Refusal {
    /// 1: no controller has these bytes, or its data do not fit into the transfer room.
    BadController = 1,
    /// 2: table and data do not hold a disk.
    BadStore = 2,
    /// 3: the image ends before a byte that is needed.
    ShortImage = 3,
    /// 4: the file is no DSK image.
    NotAnImage = 4,
    /// 5: a track of the image has no track signature.
    NotATrack = 5,
    /// 6: the disk would have more than 204 tracks.
    TooManyTracks = 6,
    /// 7: the disk would have more than 2,048 sectors.
    TooManySectors = 7,
    /// 8: the disk's bytes would not fit into its data room.
    NoRoom = 8,
    /// 9: the bytes of a Read Data, or the unread data of a sheet, would not fit into the transfer room.
    NoTransferRoom = 9,
    /// 11: the bytes are not a sheet, or no controller has what is in it.
    BadSheet = 11,
    /// 12: the disk has no extended image: its tracks do not rise by cylinder and side, a side exceeds 1, the table
    /// would have more than 204 entries, a track has more than 29 sectors, or one takes more than 65,280 bytes.
    NoImage = 12,
    /// 13: a buffer is too short for what would be written to it. This crate lends none that is.
    ShortBuffer = 13,
}

impl Refusal {
    /// Every refusal, in the order of the numbers.
    const ALL: [Refusal; 12] = [
        Refusal::BadController,
        Refusal::BadStore,
        Refusal::ShortImage,
        Refusal::NotAnImage,
        Refusal::NotATrack,
        Refusal::TooManyTracks,
        Refusal::TooManySectors,
        Refusal::NoRoom,
        Refusal::NoTransferRoom,
        Refusal::BadSheet,
        Refusal::NoImage,
        Refusal::ShortBuffer,
    ];

    /// The number by which the exported calls know it.
    pub fn number(self) -> u8 {
        self as u8
    }

    /// The refusal that has this number, if there is one.
    pub fn from_number(number: u8) -> Option<Refusal> {
        let mut all = Refusal::ALL.into_iter();
        all.find(|refusal| refusal.number() == number)
    }

    /// What it means, and what a host can do.
    fn text(self) -> &'static str {
        match self {
            Refusal::BadController => {
                "these are not the bytes of a controller, or its data do not fit into the transfer room; \
                 give it the room that they take, or begin with a new one"
            }
            Refusal::BadStore => {
                "table and data do not hold a disk; use them as a disk gave them, uncut, or load the image again"
            }
            Refusal::ShortImage => {
                "the image ends before a byte that its header or a track calls for; get the whole file"
            }
            Refusal::NotAnImage => {
                "this is no DSK image, normal or extended; ask for a file of that kind"
            }
            Refusal::NotATrack => {
                "a track of the image does not begin with the track signature; the file is damaged, get it again"
            }
            Refusal::TooManyTracks => {
                "the disk would have more than 204 tracks, which no room can hold"
            }
            Refusal::TooManySectors => {
                "the disk would have more than 2,048 sectors, which no room can hold"
            }
            Refusal::NoRoom => {
                "the bytes of the disk would exceed its data room; give it more, up to 1,048,576 bytes, and try again"
            }
            Refusal::NoTransferRoom => {
                "the bytes of the read, or the unread data of the sheet, exceed the transfer room; give it more, up \
                 to 65,536 bytes, and send the byte, or take up the sheet, again"
            }
            Refusal::BadSheet => {
                "this is not a sheet, or no controller has what is in it; use a sheet as a controller gave it, uncut"
            }
            Refusal::NoImage => {
                "the disk has no extended image: tracks out of order, a side over 1, more than 204 entries of \
                 cylinders and sides, or a track too large for its block; keep table and data instead"
            }
            Refusal::ShortBuffer => {
                "the buffer is too short for what would be written to it; lend a longer one"
            }
        }
    }
}

impl fmt::Display for Refusal {
    fn fmt(&self, f: &mut fmt::Formatter<'_>) -> fmt::Result {
        write!(f, "refusal {}: {}", self.number(), self.text())
    }
}

impl Error for Refusal {}
