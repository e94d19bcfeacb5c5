//! What the host is told of a sector beside its bytes.

/// Which sector of its track was served: its place from 1, and how many sectors of the track bear its ID.
///
/// A copy-protected disk may bear an ID more than once on a track. The first of them is served.
#[derive(Clone, Copy, Debug, PartialEq, Eq, Hash)]
pub struct Match {
    /// The place of the sector in its track, from 1.
    pub place: u8,
    /// How many sectors of the track bear its ID, itself among them: never 0.
    pub count: u8,
}

/// What the host is told beside that a byte was taken.
///
/// Nothing of it is seen at the ports: it is for support, and a host may leave it alone.
#[derive(Clone, Copy, Debug, Default, PartialEq, Eq, Hash)]
#[non_exhaustive]
pub struct Report {
    /// The sector that was found by a Read Data or Read Deleted (the first that it reads), a Write Data or the end of a
    /// write, told at the byte that ends it. None where none was found or the drive was not ready, and at every other
    /// byte.
    pub sector: Option<Match>,
}
