//! Loads the disk that a script or a session begins with.

use std::io::Cursor;

use raze::disk::Disk;

use crate::Failure;
use crate::capacities::Totals;

/// The disk of the image, or a fresh one where there is none. It has to load and
/// to be inside the capacities; `name` tells whose it is.
pub fn disk(name: &str, image: Option<&[u8]>) -> Result<Disk, Failure> {
    let Some(image) = image else {
        return Ok(Disk::new_formatted());
    };
    let broken = |fault| Failure::Stream(format!("the image of {name}: {fault}"));
    let disk = Disk::new(Cursor::new(image)).map_err(|error| broken(error.to_string()))?;
    match Totals::of(&disk).refusal() {
        Some(number) => Err(broken(format!("refused {number}"))),
        None => Ok(disk),
    }
}
