//! The extended image of a disk, by the words of request 2026-03 and the published
//! description of the format. The Rust reads such images, and writes none.

use raze::disk::{Disk, Sector, Track};

/// The refusal number of a disk that an extended image cannot hold.
const UNFIT: u8 = 12;

/// The largest numbers that an image holds: of places in its table, of sectors of a
/// track, and of bytes of a padded track.
const MOST_PLACES: usize = 204;
const MOST_SECTORS: usize = 29;
const MOST_TRACK: usize = 65_280;

/// How many bytes the disk's header has, and that of a track; the table tells the
/// length of a track as a number of such blocks.
const BLOCK: usize = 256;

/// The extended image of the disk, or the refusal number where it has none.
pub fn image(disk: &Disk) -> Result<Vec<u8>, u8> {
    if !is_fit(disk) {
        return Err(UNFIT);
    }
    let mut image = header(disk);
    for track in disk.tracks() {
        image.extend(track_bytes(track));
    }
    Ok(image)
}

/// Whether an extended image can hold the disk.
fn is_fit(disk: &Disk) -> bool {
    let mut tracks = disk.tracks().iter();
    let mut pairs = disk.tracks().windows(2);
    pairs.all(|pair| place(&pair[0]) < place(&pair[1]))
        && tracks.all(is_fit_track)
        && cylinders(disk) * sides(disk) <= MOST_PLACES
}

fn is_fit_track(track: &Track) -> bool {
    track.side() <= 1
        && track.sectors().len() <= MOST_SECTORS
        && padded(track_length(track)) <= MOST_TRACK
}

/// What tracks are ordered by: cylinder, then side.
fn place(track: &Track) -> (u8, u8) {
    (track.cylinder(), track.side())
}

/// The greatest cylinder plus one, or 0 where there are no tracks.
fn cylinders(disk: &Disk) -> usize {
    let numbers = disk.tracks().iter().map(|track| track.cylinder());
    numbers
        .max()
        .map_or(0, |greatest| usize::from(greatest) + 1)
}

/// 1 where no track has side 1, else 2.
fn sides(disk: &Disk) -> usize {
    let other = disk.tracks().iter().any(|track| track.side() == 1);
    1 + usize::from(other)
}

/// How many bytes a track has before it is padded: its header and its data.
fn track_length(track: &Track) -> usize {
    let lengths = track.sectors().iter().map(|sector| sector.data.len());
    BLOCK + lengths.sum::<usize>()
}

/// The length with zeros behind it up to a whole number of blocks.
fn padded(length: usize) -> usize {
    length.next_multiple_of(BLOCK)
}

/// The disk's header. Creator and unused bytes are zero.
fn header(disk: &Disk) -> Vec<u8> {
    let mut header = b"EXTENDED CPC DSK File\r\nDisk-Info\r\n".to_vec();
    header.resize(0x30, 0);
    header.extend([cylinders(disk) as u8, sides(disk) as u8]);
    header.resize(0x34, 0);
    header.extend(table(disk));
    header.resize(BLOCK, 0);
    header
}

/// The blocks of each track, in order of cylinder, then side; 0 for one that is not
/// there.
fn table(disk: &Disk) -> Vec<u8> {
    let mut table = Vec::new();
    for cylinder in 0..cylinders(disk) {
        for side in 0..sides(disk) {
            let track = disk.get_track(side as u8, cylinder as u8);
            let length = track.map_or(0, |track| padded(track_length(track)));
            table.push((length / BLOCK) as u8);
        }
    }
    table
}

/// A track: its header, the list of its sectors, and their data from the next block
/// on, with zeros behind them.
fn track_bytes(track: &Track) -> Vec<u8> {
    let mut bytes = b"Track-Info\r\n".to_vec();
    bytes.resize(0x10, 0);
    bytes.extend([track.cylinder(), track.side()]);
    bytes.resize(0x14, 0);
    bytes.extend([track.sector_size(), track.sectors().len() as u8]);
    bytes.extend([track.gap3(), track.filler()]);
    bytes.extend(track.sectors().iter().flat_map(entry));
    bytes.resize(BLOCK, 0);
    for sector in track.sectors() {
        bytes.extend(&sector.data);
    }
    bytes.resize(padded(bytes.len()), 0);
    bytes
}

/// The entry of a sector in the list of its track.
fn entry(sector: &Sector) -> [u8; 8] {
    let id = &sector.id;
    let [low, high] = (sector.data.len() as u16).to_le_bytes();
    let status = [sector.st1.bits(), sector.st2.bits()];
    [id.c, id.h, id.r, id.n, status[0], status[1], low, high]
}
