//! Makes disk images from plans. A plan writes its fields as told and checks
//! nothing, so it makes broken images as well as good ones. Every byte that is
//! no field is noise: what a reader should leave alone is nonsense, and data
//! taken from a wrong place show.

use crate::noise::Noise;

/// Where the first track of an image lies.
pub const FIRST: usize = 0x100;

/// Where a track has its signature and the fields behind it.
const FIELDS: [usize; 9] = [0, 0x0c, 0x10, 0x11, 0x12, 0x14, 0x15, 0x16, 0x17];

/// Where a track's sector list begins.
const LIST: usize = 0x18;

/// Where a track's data begin.
const DATA: usize = 0x100;

/// A sector: its entry in the list, and how many bytes of data it takes.
#[derive(Clone)]
pub struct Sector {
    entry: [u8; 8],
    data: usize,
}

impl Sector {
    /// A sector of an extended image, whose entry tells the stored length.
    pub fn stored([c, h, r, n]: [u8; 4], length: u16) -> Sector {
        let [low, high] = length.to_le_bytes();
        Sector {
            entry: [c, h, r, n, 0, 0, low, high],
            data: length.into(),
        }
    }

    /// A sector of a normal image, whose length follows from `n`; the length in
    /// its entry is nonsense.
    pub fn sized([c, h, r, n]: [u8; 4]) -> Sector {
        Sector {
            entry: [c, h, r, n, 0, 0, 0x5a, 0xa5],
            data: 128 << (n & 3),
        }
    }

    /// The same sector with these status bytes.
    pub fn status(mut self, st1: u8, st2: u8) -> Sector {
        self.entry[4] = st1;
        self.entry[5] = st2;
        self
    }
}

/// A track: the fields of its header, and its sectors.
#[derive(Clone)]
pub struct Track {
    pub cylinder: u8,
    pub side: u8,
    pub size: u8,
    pub gap: u8,
    pub filler: u8,
    pub sectors: Vec<Sector>,
}

impl Track {
    /// A track with the usual size, gap and filler.
    pub fn new(cylinder: u8, side: u8, sectors: Vec<Sector>) -> Track {
        Track {
            cylinder,
            side,
            size: 2,
            gap: 82,
            filler: 229,
            sectors,
        }
    }

    /// The end of the sector list, counted from the track.
    fn list_end(&self) -> usize {
        LIST + 8 * self.sectors.len()
    }

    /// The end of each sector's data, counted from the track.
    fn data_ends(&self) -> impl Iterator<Item = usize> {
        self.sectors.iter().scan(DATA, |end, sector| {
            *end += sector.data;
            Some(*end)
        })
    }

    /// The end of the last byte that a reader needs, counted from the track.
    fn end(&self) -> usize {
        let data = self.data_ends().last().filter(|&end| end > DATA);
        self.list_end().max(data.unwrap_or(0))
    }

    /// How many blocks of 256 bytes the track needs.
    pub fn blocks(&self) -> usize {
        self.end().div_ceil(0x100)
    }

    fn write(&self, block: &mut [u8]) {
        block[..12].copy_from_slice(b"Track-Info\r\n");
        block[0x10] = self.cylinder;
        block[0x11] = self.side;
        block[0x14] = self.size;
        block[0x15] = self.sectors.len() as u8;
        block[0x16] = self.gap;
        block[0x17] = self.filler;
        for (place, sector) in block[LIST..].chunks_mut(8).zip(&self.sectors) {
            place.copy_from_slice(&sector.entry);
        }
    }
}

/// A plan of an image: the disk's header, and the tracks at their places.
pub struct Plan {
    header: Vec<u8>,
    tracks: Vec<(usize, Track)>,
}

impl Plan {
    /// An extended image with this table, which need not fit to its numbers.
    pub fn extended(tracks: u8, sides: u8, table: &[u8]) -> Plan {
        let text = b"EXTENDED CPC DSK File\r\nDisk-Info\r\n";
        Plan::new(text, &[&[tracks, sides, 0x5a, 0xa5], table].concat())
    }

    /// A normal image with tracks of this size.
    pub fn normal(tracks: u8, sides: u8, track_size: u16) -> Plan {
        let text = b"MV - CPCEMU Disk-File\r\nDisk-Info\r\n";
        let [low, high] = track_size.to_le_bytes();
        Plan::new(text, &[tracks, sides, low, high])
    }

    /// An extended image of one side with these tracks, 512 bytes for each.
    pub fn of(tracks: impl IntoIterator<Item = Track>) -> Plan {
        let tracks: Vec<Track> = tracks.into_iter().collect();
        let table = vec![2; tracks.len()];
        Plan::extended(table.len() as u8, 1, &table).row(0x200, tracks)
    }

    /// An extended image of one side with these tracks, each behind the blocks that the
    /// one before it needs. Only the last of them may be too long for the table.
    pub fn packed(tracks: &[Track]) -> Plan {
        let blocks = tracks.iter().map(|track| track.blocks().min(255) as u8);
        let table: Vec<u8> = blocks.collect();
        let places = table.iter().scan(FIRST, |next, &blocks| {
            let place = *next;
            *next += usize::from(blocks) * 0x100;
            Some(place)
        });
        let plan = Plan::extended(table.len() as u8, 1, &table);
        let tracks = places.zip(tracks.iter().cloned());
        tracks.fold(plan, |plan, (place, track)| plan.track(place, track))
    }

    fn new(text: &[u8; 0x22], fields: &[u8]) -> Plan {
        Plan {
            header: [text, b"Kafondiye     ".as_slice(), fields].concat(),
            tracks: Vec::new(),
        }
    }

    /// The same plan with one more track, at this place in the image.
    pub fn track(mut self, place: usize, track: Track) -> Plan {
        self.tracks.push((place, track));
        self
    }

    /// The same plan with these tracks as well, the first of them at the place of
    /// the disk's first track and each next one `step` bytes further.
    pub fn row(self, step: usize, tracks: impl IntoIterator<Item = Track>) -> Plan {
        let places = (FIRST..).step_by(step);
        let tracks = tracks.into_iter().zip(places);
        tracks.fold(self, |plan, (track, place)| plan.track(place, track))
    }

    /// The image, which ends with the last byte that some track needs.
    pub fn image(&self) -> Vec<u8> {
        let ends = self.tracks.iter().map(|(place, track)| place + track.end());
        let length = ends.fold(self.header.len(), usize::max);
        let mut image: Vec<u8> = Noise::new(0).take(length).collect();
        image[..self.header.len()].copy_from_slice(&self.header);
        for (place, track) in &self.tracks {
            track.write(&mut image[*place..]);
        }
        image
    }

    /// Where fields, entries and data begin and end.
    pub fn boundaries(&self) -> Vec<usize> {
        let mut all = vec![0, 0x0c, 0x30, 0x31, 0x32, self.header.len(), FIRST];
        for (place, track) in &self.tracks {
            let entries = (LIST..=track.list_end()).step_by(8);
            let data = track.data_ends().chain([DATA]);
            let ends = FIELDS.into_iter().chain(entries).chain(data);
            all.extend(ends.map(|end| place + end));
        }
        all
    }

    /// Where bytes lie that a reader goes by: numbers, sizes, table and lists.
    pub fn telling(&self) -> Vec<usize> {
        let lists = self
            .tracks
            .iter()
            .flat_map(|(place, track)| place + 0x10..place + track.list_end());
        (0x30..self.header.len()).chain(lists).collect()
    }
}

/// The image with another byte at one place.
pub fn changed(image: &[u8], at: usize, byte: u8) -> Vec<u8> {
    let mut image = image.to_vec();
    image[at] = byte;
    image
}

/// The first bytes of the image.
pub fn cut(image: &[u8], length: usize) -> Vec<u8> {
    image[..length].to_vec()
}
