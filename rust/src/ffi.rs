//! The exported calls of the static library, as C has them. `include/kafondiye.h` declares the same for C.
//!
//! Each answers one word: bits 0 to 7 are the byte that it answers, bits 8 to 15 the refusal number, 0 where
//! nothing was refused. Where it tells of a sector that was found, bits 16 to 23 are its place in the track, from 1,
//! and bits 24 to 31 how many sectors of the track bear its ID; both are 0 where none was found. A refused call
//! answers its number alone. The three lengths and [`disk_sector`] answer plain numbers. A slice is a pointer and a
//! length. The calls keep nothing between them: all that they know is in the bytes that are lent.
//!
//! # Safety
//!
//! Every pointer must be valid for so many bytes as the length behind it says, for reading, or for reading and
//! writing where it is `*mut`, for as long as the call runs; and no two parts of which one is `*mut` may overlap.
//! A length of 0 may come with any pointer that is not null.

unsafe extern "C" {
    /// How many bytes a controller has.
    pub fn floppy_controller_length() -> u64;
    /// How many bytes a disk's table has.
    pub fn disk_table_length() -> u64;

    /// Makes the bytes those of a new controller, of the Rust machine.
    pub fn floppy_new(controller: *mut u8, length: usize) -> u64;
    /// Makes the bytes those of a new controller with this setting, of which bit 0 counts: 0 the Rust machine, 1 the
    /// data-sheet machine.
    pub fn floppy_new_with(controller: *mut u8, length: usize, setting: u8) -> u64;
    /// Answers the setting that the controller was made with.
    pub fn floppy_setting(controller: *const u8, length: usize) -> u64;
    /// Switches the motor: 0 off, else on.
    pub fn floppy_set_motor(controller: *mut u8, length: usize, on: u8) -> u64;
    /// Answers 1 where the motor is on.
    pub fn floppy_motor(controller: *const u8, length: usize) -> u64;
    /// Answers the cylinder that the head is over.
    pub fn floppy_current_track(controller: *const u8, length: usize) -> u64;
    /// Says whether a disk is in the drive: 0 none, else the one whose store is lent from now on.
    pub fn floppy_set_disk(controller: *mut u8, length: usize, present: u8) -> u64;
    /// Answers 1 where a disk is in the drive.
    pub fn floppy_disk(controller: *const u8, length: usize) -> u64;
    /// Reads the main status.
    pub fn floppy_read_status(controller: *mut u8, length: usize) -> u64;
    /// Reads a byte from the data port.
    pub fn floppy_read_cmd(
        controller: *mut u8,
        length: usize,
        transfer: *const u8,
        transfer_length: usize,
    ) -> u64;
    /// Sends a byte to the data port. Tells of the sector that was found where the byte ends a Read Data or
    /// Read Deleted (of its first sector), a Write Data or a write, and of none at every other byte.
    pub fn floppy_write_cmd(
        controller: *mut u8,
        length: usize,
        table: *mut u8,
        table_length: usize,
        data: *mut u8,
        data_length: usize,
        transfer: *mut u8,
        transfer_length: usize,
        b: u8,
    ) -> u64;

    /// Answers how many bytes the longest sheet has.
    pub fn floppy_sheet_length() -> u64;
    /// Writes the controller out as a sheet, and answers its length in bits 32 to 63.
    pub fn floppy_write_sheet(
        controller: *const u8,
        length: usize,
        transfer: *const u8,
        transfer_length: usize,
        sheet: *mut u8,
        sheet_length: usize,
    ) -> u64;
    /// Makes the bytes the controller of a sheet, with no disk.
    pub fn floppy_read_sheet(
        controller: *mut u8,
        length: usize,
        transfer: *mut u8,
        transfer_length: usize,
        sheet: *const u8,
        sheet_length: usize,
    ) -> u64;

    /// Loads a DSK image, normal or extended, into a store.
    pub fn disk_new(
        image: *const u8,
        image_length: usize,
        table: *mut u8,
        table_length: usize,
        data: *mut u8,
        data_length: usize,
    ) -> u64;
    /// Makes a store that of a freshly formatted disk.
    pub fn disk_new_formatted(
        table: *mut u8,
        table_length: usize,
        data: *mut u8,
        data_length: usize,
    ) -> u64;
    /// Answers the length of the disk's extended image in bits 32 to 63.
    pub fn disk_image_length(
        table: *const u8,
        table_length: usize,
        data: *const u8,
        data_length: usize,
    ) -> u64;
    /// Writes the disk as an extended image; answers its length in bits 32 to 63.
    pub fn disk_write_image(
        table: *const u8,
        table_length: usize,
        data: *const u8,
        data_length: usize,
        image: *mut u8,
        image_length: usize,
    ) -> u64;
    /// Answers the greatest cylinder of side 0 in bits 0 to 7, of the other sides in bits 16 to 23.
    pub fn disk_geometry(
        table: *const u8,
        table_length: usize,
        data: *const u8,
        data_length: usize,
    ) -> u64;
    /// Answers 1 where there is a sector at that address, and tells of it.
    pub fn disk_has_sector(
        table: *const u8,
        table_length: usize,
        data: *const u8,
        data_length: usize,
        side: u8,
        cylinder: u8,
        c: u8,
        h: u8,
        r: u8,
        n: u8,
    ) -> u64;
    /// Not an answer word: the place of that sector's bytes in `data` in bits 32 to 63, their number in bits 0 to
    /// 15, and in bits 16 to 31 which sector of its track it is; 0 where there is none or the store is refused, and
    /// only then.
    pub fn disk_sector(
        table: *const u8,
        table_length: usize,
        data: *const u8,
        data_length: usize,
        side: u8,
        cylinder: u8,
        c: u8,
        h: u8,
        r: u8,
        n: u8,
    ) -> u64;
}
