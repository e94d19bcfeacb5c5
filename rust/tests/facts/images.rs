//! Images for the tests.

use kafondiye::SectorId;

/// A sector of an image: its ID and its bytes.
pub type Sector = (SectorId, Vec<u8>);

/// A track of side 0.
pub struct Track {
    pub cylinder: u8,
    pub sectors: Vec<Sector>,
}

/// An extended image of these tracks.
pub fn extended(tracks: &[Track]) -> Vec<u8> {
    let blocks: Vec<Vec<u8>> = tracks.iter().map(block).collect();
    let mut image = header(b"EXTENDED CPC DSK File\r\nDisk-Info\r\n", tracks.len());
    for (place, block) in blocks.iter().enumerate() {
        image[0x34 + place] = (block.len() / 256) as u8;
    }
    image.extend(blocks.concat());
    image
}

/// A normal image of so many tracks without sectors.
pub fn normal(tracks: u8) -> Vec<u8> {
    let mut image = header(b"MV - CPCEMU Disk-File\r\nDisk-Info\r\n", tracks.into());
    image[0x33] = 1;
    for cylinder in 0..tracks {
        let sectors = Vec::new();
        image.extend(block(&Track { cylinder, sectors }));
    }
    image
}

/// The first 256 bytes of an image with one side.
fn header(text: &[u8], tracks: usize) -> Vec<u8> {
    let mut bytes = text.to_vec();
    bytes.resize(0x100, 0);
    bytes[0x30] = tracks as u8;
    bytes[0x31] = 1;
    bytes
}

/// A track with its sectors, up to a multiple of 256 bytes. Where the list of sectors is longer than the first 256
/// bytes, it runs into the data, and the sectors have to be empty.
fn block(track: &Track) -> Vec<u8> {
    let mut bytes = b"Track-Info\r\n".to_vec();
    let count = track.sectors.len() as u8;
    bytes.extend([0, 0, 0, 0, track.cylinder, 0, 0, 0, 2, count, 0x52, 0xe5]);
    for (id, data) in &track.sectors {
        bytes.extend([id.c, id.h, id.r, id.n, 0, 0]);
        bytes.extend((data.len() as u16).to_le_bytes());
    }
    bytes.resize(bytes.len().max(0x100), 0);
    for (_, data) in &track.sectors {
        bytes.extend(data);
    }
    bytes.resize(bytes.len().next_multiple_of(0x100), 0);
    bytes
}
