//! The exported calls over slices: what each answers is its word, as it came. All `unsafe` is in this module, and in
//! the declarations of [`ffi`].
//!
//! # Safety
//!
//! A slice goes out as its pointer and its length. It is valid for so many bytes while the call runs, its pointer
//! is not null even where it is empty, and Rust lends no two slices that overlap if one of them may be changed.
//! That is all that [`ffi`] asks, and it is so in each call below.

use super::ffi;

/// Where a sector is looked for: side, cylinder, C, H, R and N.
pub type Address = [u8; 6];

/// The two lengths that the library tells.
pub fn lengths() -> (u64, u64) {
    unsafe { (ffi::floppy_controller_length(), ffi::disk_table_length()) }
}

/// How many bytes the longest sheet has.
pub fn sheet_length() -> u64 {
    unsafe { ffi::floppy_sheet_length() }
}

/// Makes the bytes those of a new controller, of the Rust machine.
#[allow(dead_code)] // the crate names a machine each time; the differential runs make this call as well
pub fn new(controller: &mut [u8]) -> u64 {
    unsafe { ffi::floppy_new(controller.as_mut_ptr(), controller.len()) }
}

/// Makes the bytes those of a new controller with this setting.
pub fn new_with(controller: &mut [u8], setting: u8) -> u64 {
    unsafe { ffi::floppy_new_with(controller.as_mut_ptr(), controller.len(), setting) }
}

/// The setting that a controller was made with.
pub fn setting(controller: &[u8]) -> u64 {
    unsafe { ffi::floppy_setting(controller.as_ptr(), controller.len()) }
}

/// Switches the motor: 0 off, else on.
pub fn set_motor(controller: &mut [u8], on: u8) -> u64 {
    unsafe { ffi::floppy_set_motor(controller.as_mut_ptr(), controller.len(), on) }
}

/// Whether the motor is on.
pub fn motor(controller: &[u8]) -> u64 {
    unsafe { ffi::floppy_motor(controller.as_ptr(), controller.len()) }
}

/// The cylinder that the head is over.
pub fn current_track(controller: &[u8]) -> u64 {
    unsafe { ffi::floppy_current_track(controller.as_ptr(), controller.len()) }
}

/// Says whether a disk is in the drive: 0 none, else one.
pub fn set_disk(controller: &mut [u8], present: u8) -> u64 {
    unsafe { ffi::floppy_set_disk(controller.as_mut_ptr(), controller.len(), present) }
}

/// Whether a disk is in the drive.
pub fn disk(controller: &[u8]) -> u64 {
    unsafe { ffi::floppy_disk(controller.as_ptr(), controller.len()) }
}

/// Reads the main status.
pub fn read_status(controller: &mut [u8]) -> u64 {
    unsafe { ffi::floppy_read_status(controller.as_mut_ptr(), controller.len()) }
}

/// Reads a byte from the data port.
pub fn read_cmd(controller: &mut [u8], transfer: &[u8]) -> u64 {
    unsafe {
        ffi::floppy_read_cmd(
            controller.as_mut_ptr(),
            controller.len(),
            transfer.as_ptr(),
            transfer.len(),
        )
    }
}

/// Sends a byte to the data port.
pub fn write_cmd(
    controller: &mut [u8],
    table: &mut [u8],
    data: &mut [u8],
    transfer: &mut [u8],
    b: u8,
) -> u64 {
    unsafe {
        ffi::floppy_write_cmd(
            controller.as_mut_ptr(),
            controller.len(),
            table.as_mut_ptr(),
            table.len(),
            data.as_mut_ptr(),
            data.len(),
            transfer.as_mut_ptr(),
            transfer.len(),
            b,
        )
    }
}

/// Writes the controller out as a sheet.
pub fn write_sheet(controller: &[u8], transfer: &[u8], sheet: &mut [u8]) -> u64 {
    unsafe {
        ffi::floppy_write_sheet(
            controller.as_ptr(),
            controller.len(),
            transfer.as_ptr(),
            transfer.len(),
            sheet.as_mut_ptr(),
            sheet.len(),
        )
    }
}

/// Makes the bytes the controller of a sheet, with no disk.
pub fn read_sheet(controller: &mut [u8], transfer: &mut [u8], sheet: &[u8]) -> u64 {
    unsafe {
        ffi::floppy_read_sheet(
            controller.as_mut_ptr(),
            controller.len(),
            transfer.as_mut_ptr(),
            transfer.len(),
            sheet.as_ptr(),
            sheet.len(),
        )
    }
}

/// Loads an image into a store.
pub fn disk_new(image: &[u8], table: &mut [u8], data: &mut [u8]) -> u64 {
    unsafe {
        ffi::disk_new(
            image.as_ptr(),
            image.len(),
            table.as_mut_ptr(),
            table.len(),
            data.as_mut_ptr(),
            data.len(),
        )
    }
}

/// Makes a store that of a freshly formatted disk.
pub fn disk_new_formatted(table: &mut [u8], data: &mut [u8]) -> u64 {
    unsafe {
        ffi::disk_new_formatted(
            table.as_mut_ptr(),
            table.len(),
            data.as_mut_ptr(),
            data.len(),
        )
    }
}

/// How long the disk's extended image is.
pub fn image_length(table: &[u8], data: &[u8]) -> u64 {
    unsafe { ffi::disk_image_length(table.as_ptr(), table.len(), data.as_ptr(), data.len()) }
}

/// Writes the disk as an extended image.
pub fn write_image(table: &[u8], data: &[u8], image: &mut [u8]) -> u64 {
    unsafe {
        ffi::disk_write_image(
            table.as_ptr(),
            table.len(),
            data.as_ptr(),
            data.len(),
            image.as_mut_ptr(),
            image.len(),
        )
    }
}

/// The greatest cylinder of side 0, and of the other sides.
pub fn geometry(table: &[u8], data: &[u8]) -> u64 {
    unsafe { ffi::disk_geometry(table.as_ptr(), table.len(), data.as_ptr(), data.len()) }
}

/// Whether there is a sector at that address, and which of its track it is.
pub fn has_sector(table: &[u8], data: &[u8], [side, cylinder, c, h, r, n]: Address) -> u64 {
    let (table, rows) = (table.as_ptr(), table.len());
    let (data, room) = (data.as_ptr(), data.len());
    unsafe { ffi::disk_has_sector(table, rows, data, room, side, cylinder, c, h, r, n) }
}

/// Place and length of the sector at that address, and which of its track it is.
pub fn sector(table: &[u8], data: &[u8], [side, cylinder, c, h, r, n]: Address) -> u64 {
    let (table, rows) = (table.as_ptr(), table.len());
    let (data, room) = (data.as_ptr(), data.len());
    unsafe { ffi::disk_sector(table, rows, data, room, side, cylinder, c, h, r, n) }
}
