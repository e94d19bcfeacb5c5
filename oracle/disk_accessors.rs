// Appended to the copy of disk.rs: what its private fields hold, and a way to change sectors.

impl Disk {
    /// The tracks, in the order in which the disk keeps them.
    pub fn tracks(&self) -> &[Track] {
        &self.tracks
    }
}

impl Track {
    /// The cylinder that the track names.
    pub fn cylinder(&self) -> u8 {
        self.cylinder
    }

    /// The side that the track names.
    pub fn side(&self) -> u8 {
        self.side
    }

    /// The size byte of the track.
    pub fn sector_size(&self) -> u8 {
        self.sector_size
    }

    /// The length of gap 3.
    pub fn gap3(&self) -> u8 {
        self.gap3
    }

    /// The filler byte.
    pub fn filler(&self) -> u8 {
        self.filler
    }

    /// The sectors, in the order in which the track keeps them.
    pub fn sectors(&self) -> &[Sector] {
        &self.sectors
    }

    /// The same, to be changed.
    pub fn sectors_mut(&mut self) -> &mut [Sector] {
        &mut self.sectors
    }
}
