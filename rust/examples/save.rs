//! Reads a sector through the ports, changes it, saves it through the ports and reads it again. In the middle of the
//! save the controller is written out as a sheet and taken up from it. At the end the disk goes home as an image. Each
//! time it is told which sector of the track was served.
//!
//!     cargo run --example save [IMAGE]
//!
//! The sector is the first of cylinder 0, side 0. Without an image a small one is made, with two sectors of one ID. The
//! file stays as it is.

use std::env;
use std::error::Error;
use std::fs;
use std::process::ExitCode;

use kafondiye::{Controller, Disk, Match, Refusal, Report, SectorId};

/// Bits of the main status: the execution phase runs, and the controller has a byte to give.
const EXECUTING: u8 = 0x20;
const GIVES: u8 = 0x40;

fn main() -> ExitCode {
    match run() {
        Ok(()) => ExitCode::SUCCESS,
        Err(error) => {
            eprintln!("save: {error}");
            ExitCode::FAILURE
        }
    }
}

fn run() -> Result<(), Box<dyn Error>> {
    let image = match env::args_os().nth(1) {
        Some(path) => fs::read(&path).map_err(|error| format!("{}: {error}", path.display()))?,
        None => small_image(),
    };
    let disk = Disk::from_image(&image)?;
    println!(
        "image: {} bytes, geometry {:?}",
        image.len(),
        disk.geometry()
    );

    let mut controller = Controller::new();
    controller.set_motor(true);
    controller.set_disk(Some(disk));
    println!("seek: {}", hex(&seek(&mut controller, 0)?));
    let id = first_id(&mut controller)?.ok_or("cylinder 0 of side 0 has no sectors")?;
    println!("sector: c {} h {} r {} n {}", id.c, id.h, id.r, id.n);

    let old = read_sector(&mut controller, id)?;
    old.show("read");
    let new = write_sector(&mut controller, id, &old.bytes)?;
    new.show("saved");
    let again = read_sector(&mut controller, id)?;
    again.show("read again");

    if again.bytes != new.bytes {
        return Err("what was read again is not what was saved".into());
    }
    println!("what was read again is what was saved");
    let disk = controller.set_disk(None).ok_or("no disk is in the drive")?;
    go_home(&disk, id, &new.bytes)
}

/// What a read or a write was: the sector's bytes, the reply, and which sector was told.
struct Done {
    bytes: Vec<u8>,
    reply: Vec<u8>,
    sector: Option<Match>,
}

impl Done {
    /// Prints how many bytes there are, the first of them, the reply, and which sector it was.
    fn show(&self, what: &str) {
        let count = self.bytes.len();
        let first = hex(&self.bytes[..count.min(4)]);
        println!(
            "{what}: {count} bytes, {first} .., reply {}",
            hex(&self.reply)
        );
        match self.sector {
            Some(Match { place, count }) => {
                println!("  place {place} of the track, {count} with this ID")
            }
            None => println!("  none was found"),
        }
    }
}

/// Writes the disk as an extended image, and looks for the sector on the disk that this loads as.
fn go_home(disk: &Disk, id: SectorId, saved: &[u8]) -> Result<(), Box<dyn Error>> {
    let image = disk.to_image()?;
    println!("home: an image of {} bytes", image.len());
    if Disk::from_image(&image)?.sector(0, 0, id) != Some(saved) {
        return Err("what came home is not what was saved".into());
    }
    println!("what came home is what was saved");
    Ok(())
}

/// Seek of drive 0, and the reply of Sense Interrupt Status.
fn seek(controller: &mut Controller, cylinder: u8) -> Result<Vec<u8>, Refusal> {
    send(controller, &[0x0f, 0x00, cylinder])?;
    send(controller, &[0x08])?;
    take(controller, GIVES)
}

/// The ID that Read ID gives first, if the track has any.
fn first_id(controller: &mut Controller) -> Result<Option<SectorId>, Refusal> {
    send(controller, &[0x4a, 0x00])?;
    Ok(match take(controller, GIVES)?[..] {
        [0x00, _, _, c, h, r, n] => Some(SectorId { c, h, r, n }),
        _ => None,
    })
}

/// Read Data of one sector.
fn read_sector(
    controller: &mut Controller,
    SectorId { c, h, r, n }: SectorId,
) -> Result<Done, Refusal> {
    let report = send(controller, &[0x46, 0x00, c, h, r, n, r, 0x2a, 0xff])?;
    Ok(Done {
        bytes: take(controller, EXECUTING)?,
        reply: take(controller, GIVES)?,
        sector: report.sector,
    })
}

/// Write Data of one sector, whose new bytes are the old ones with every bit turned. The controller says by its status
/// for how long it takes bytes; the last of them tells which sector took them.
fn write_sector(
    controller: &mut Controller,
    SectorId { c, h, r, n }: SectorId,
    old: &[u8],
) -> Result<Done, Refusal> {
    let mut report = send(controller, &[0x45, 0x00, c, h, r, n, r, 0x2a, 0xff])?;
    let mut bytes = Vec::new();
    while controller.read_status()? & EXECUTING != 0 {
        if bytes.len() == old.len() / 2 {
            pause_and_resume(controller)?;
        }
        let byte = !old.get(bytes.len()).copied().unwrap_or(0);
        report = controller.write_cmd(byte)?;
        bytes.push(byte);
    }
    Ok(Done {
        bytes,
        reply: take(controller, GIVES)?,
        sector: report.sector,
    })
}

/// Writes the controller out as a sheet, and takes it up from there with its disk, as a host does on the next day.
fn pause_and_resume(controller: &mut Controller) -> Result<(), Refusal> {
    let sheet = controller.to_sheet();
    let disk = controller.set_disk(None);
    *controller = Controller::from_sheet(&sheet)?;
    controller.set_disk(disk);
    println!("paused: a sheet of {} bytes", sheet.len());
    Ok(())
}

/// Sends bytes to the data port, and hands back what the last of them reports.
fn send(controller: &mut Controller, bytes: &[u8]) -> Result<Report, Refusal> {
    let mut report = Report::default();
    for &byte in bytes {
        report = controller.write_cmd(byte)?;
    }
    Ok(report)
}

/// Reads from the data port as long as the status has this bit. One look for each byte loses none.
fn take(controller: &mut Controller, bit: u8) -> Result<Vec<u8>, Refusal> {
    let mut bytes = Vec::new();
    while controller.read_status()? & bit != 0 {
        bytes.push(controller.read_cmd()?);
    }
    Ok(bytes)
}

/// Bytes in hex.
fn hex(bytes: &[u8]) -> String {
    let digits: Vec<String> = bytes.iter().map(|byte| format!("{byte:02x}")).collect();
    digits.join(" ")
}

/// An extended image with one track, which has two sectors of one ID, 256 bytes each: 00, 01, 02 and so on, and EE.
fn small_image() -> Vec<u8> {
    let mut image = b"EXTENDED CPC DSK File\r\nDisk-Info\r\n".to_vec();
    image.resize(0x100, 0);
    image[0x30] = 1; // tracks
    image[0x31] = 1; // sides
    image[0x34] = 3; // the track's size in units of 256 bytes
    image.extend(b"Track-Info\r\n");
    image.extend([0, 0, 0, 0, 0, 0, 0, 0, 1, 2, 0x52, 0xe5]); // size 1, two sectors, gap, filler
    for _ in 0..2 {
        image.extend([0, 0, 1, 1, 0, 0, 0x00, 0x01]); // c, h, r, n, st1, st2, stored length
    }
    image.resize(0x200, 0);
    image.extend(0..=255);
    image.extend([0xee; 256]);
    image
}
