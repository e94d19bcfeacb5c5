/*
 * A floppy controller (uPD765A) that is proved, and its disks: the calls of the static library libhost.a (x86-64,
 * Linux). src/ffi.rs declares the same for Rust.
 *
 * All bytes are the host's. It lends them to each call, and the library keeps nothing between calls:
 *
 *   controller   floppy_controller_length() bytes (1,068), made by floppy_new, floppy_new_with or floppy_read_sheet;
 *                docs/HOST.md has their layout
 *   table        disk_table_length() bytes (17,609), and
 *   data         bytes for the sectors' contents (room: its length, or 1,048,576 if that is less): together the
 *                store, which holds one disk; made by disk_new or disk_new_formatted; docs/STORE.md has the layout
 *   transfer     bytes for what a Read Data reads (room: its length, or 65,536 if that is less); lend the same ones
 *                until they are read
 *   sheet        a controller without its disk, written out to be kept, floppy_sheet_length() bytes at most (66,615);
 *                docs/SHEET.md has its form
 *
 * The lengths are those of this version. Ask for them rather than write them down: they may change with the next.
 *
 * A part is a pointer and a length. The pointer is not null, even where the length is 0, and no two parts overlap of
 * which one may be changed. A length that does not fit and bytes that cannot be are refused, so no call needs a
 * check before it.
 *
 * Unless its comment says otherwise, a call answers a word:
 *
 *   bits 0 to 7     the byte that it answers: kafondiye_byte
 *   bits 8 to 15    why it was refused: kafondiye_refusal_of
 *   bits 16 to 31   of a sector that was found, its place in the track and how many sectors of the track bear its ID:
 *                   kafondiye_place_in_track, kafondiye_count_of_id (disk_geometry has a cylinder there)
 *   bits 32 to 63   how long a sheet or an image is: kafondiye_sheet_length, kafondiye_image_length
 *
 * What a call does not tell is 0. A refused call answers its number alone, and has changed no byte.
 */
#ifndef KAFONDIYE_H
#define KAFONDIYE_H

#include <stddef.h>
#include <stdint.h>

#ifdef __cplusplus
extern "C" {
#endif

/* Why a call was refused. No call answers 10, which belongs to a program that lists images. */
enum kafondiye_refusal {
    KAFONDIYE_NOT_REFUSED = 0,
    KAFONDIYE_BAD_CONTROLLER = 1,   /* no controller has these bytes, or its data exceed the transfer room */
    KAFONDIYE_BAD_STORE = 2,        /* table of the wrong length, or table and data do not hold a disk */
    KAFONDIYE_SHORT_IMAGE = 3,      /* the image ends before a byte that is needed */
    KAFONDIYE_NOT_AN_IMAGE = 4,     /* the file is no DSK image */
    KAFONDIYE_NOT_A_TRACK = 5,      /* a track of the image has no track signature */
    KAFONDIYE_TOO_MANY_TRACKS = 6,  /* the disk would have more than 204 tracks */
    KAFONDIYE_TOO_MANY_SECTORS = 7, /* the disk would have more than 2,048 sectors */
    KAFONDIYE_NO_ROOM = 8,          /* the disk's bytes would exceed the data room */
    KAFONDIYE_NO_TRANSFER_ROOM = 9, /* the bytes of a Read Data, or a sheet's unread data, exceed the transfer room */
    KAFONDIYE_BAD_SHEET = 11,       /* not a sheet, or no controller has what is in it */
    KAFONDIYE_NO_IMAGE = 12,        /* the disk has no extended image: see disk_image_length */
    KAFONDIYE_SHORT_BUFFER = 13     /* a buffer is too short for what would be written to it */
};

/*
 * Which machine a controller is, bit 0 of its setting. The data-sheet machine takes the IDs of a Format's sectors
 * behind the command, and replies 80 alone to an invalid command and to a Sense Interrupt Status with no seek running.
 * All else is alike.
 */
enum kafondiye_machine {
    KAFONDIYE_RUST_MACHINE = 0,
    KAFONDIYE_DATA_SHEET_MACHINE = 1
};

/* The byte that a word answers, 0 where it answers none: bits 0 to 7. */
static inline uint8_t kafondiye_byte(uint64_t word)
{
    return (uint8_t)(word & 0xff);
}

/* Why the call was refused, 0 where it was not: bits 8 to 15. */
static inline enum kafondiye_refusal kafondiye_refusal_of(uint64_t word)
{
    return (enum kafondiye_refusal)(word >> 8 & 0xff);
}

/* The greatest cylinder of the sides other than 0, out of the answer of disk_geometry: bits 16 to 23. */
static inline uint8_t kafondiye_other_sides(uint64_t word)
{
    return (uint8_t)(word >> 16 & 0xff);
}

/*
 * Which sector of its track was found, from 1, out of the answer of floppy_write_cmd, disk_has_sector or disk_sector; 0
 * where none was found, or the call tells of none: bits 16 to 23.
 */
static inline uint8_t kafondiye_place_in_track(uint64_t word)
{
    return (uint8_t)(word >> 16 & 0xff);
}

/* How many sectors of that track bear its ID, itself among them, out of the same answers: bits 24 to 31. */
static inline uint8_t kafondiye_count_of_id(uint64_t word)
{
    return (uint8_t)(word >> 24 & 0xff);
}

/* How many bytes a sector has, out of the answer of disk_sector: bits 0 to 15. */
static inline size_t kafondiye_length(uint64_t word)
{
    return (size_t)(word & 0xffff);
}

/* At which place of the data buffer they begin, out of the answer of disk_sector: bits 32 to 63. */
static inline size_t kafondiye_place(uint64_t word)
{
    return (size_t)(word >> 32);
}

/* How many bytes a sheet has, out of the answer of floppy_write_sheet: bits 32 to 63. */
static inline size_t kafondiye_sheet_length(uint64_t word)
{
    return (size_t)(word >> 32);
}

/* How many bytes an image has, out of the answer of disk_image_length or disk_write_image: bits 32 to 63. */
static inline size_t kafondiye_image_length(uint64_t word)
{
    return (size_t)(word >> 32);
}

/* How many bytes a controller has. Not a word but a plain number. */
uint64_t floppy_controller_length(void);

/* How many bytes a disk's table has. Not a word but a plain number. */
uint64_t disk_table_length(void);

/* How many bytes the longest sheet has. Not a word but a plain number. */
uint64_t floppy_sheet_length(void);

/* Makes the bytes those of a new controller of the Rust machine, with no disk in the drive. */
uint64_t floppy_new(uint8_t *controller, size_t length);

/* The same with a setting, of which bit 0 is the machine: enum kafondiye_machine. Its other bits mean nothing yet. */
uint64_t floppy_new_with(uint8_t *controller, size_t length, uint8_t setting);

/* Answers the setting that the controller was made with. A sheet keeps it; one of version 1 is of the Rust machine. */
uint64_t floppy_setting(const uint8_t *controller, size_t length);

/* Switches the motor: 0 off, else on. No command depends on it. */
uint64_t floppy_set_motor(uint8_t *controller, size_t length, uint8_t on);

/* Answers 1 where the motor is on. */
uint64_t floppy_motor(const uint8_t *controller, size_t length);

/* Answers the cylinder that the head is over. */
uint64_t floppy_current_track(const uint8_t *controller, size_t length);

/*
 * Says whether a disk is in the drive: 0 none, else the one whose store is lent from now on. Nothing else changes: a
 * write in progress, and a Format that takes IDs, end on the disk that is in when their last byte comes.
 */
uint64_t floppy_set_disk(uint8_t *controller, size_t length, uint8_t present);

/* Answers 1 where a disk is in the drive. */
uint64_t floppy_disk(const uint8_t *controller, size_t length);

/*
 * Reads the main status. While data are unread, every third status read with no data-port read between loses a byte
 * of them.
 */
uint64_t floppy_read_status(uint8_t *controller, size_t length);

/* Reads a byte from the data port: unread data, else an unread reply, else 0. */
uint64_t floppy_read_cmd(uint8_t *controller, size_t length, const uint8_t *transfer, size_t transfer_length);

/*
 * Sends a byte to the data port: of a command, of the data of a write, or of the IDs of a Format. A refused byte is not
 * taken and may be sent again, with more room. With no disk in the drive table and data are not looked at and may have
 * length 0.
 *
 * The last byte of a Read Data or Read Deleted, of a Write Data and of the data of a write tells which sector of its
 * track was found (of a read, the first; at the end of a write, on the disk that is in then): kafondiye_place_in_track,
 * kafondiye_count_of_id. Both are 0 where none was found or the drive is not ready, and at every other byte.
 */
uint64_t floppy_write_cmd(uint8_t *controller, size_t length, uint8_t *table, size_t table_length, uint8_t *data,
                          size_t data_length, uint8_t *transfer, size_t transfer_length, uint8_t b);

/*
 * Writes the controller, with its unread data, as a sheet to the start of the buffer, and answers its length:
 * kafondiye_sheet_length. Bytes behind it stay. With floppy_sheet_length() bytes no buffer is too short.
 */
uint64_t floppy_write_sheet(const uint8_t *controller, size_t length, const uint8_t *transfer, size_t transfer_length,
                            uint8_t *sheet, size_t sheet_length);

/*
 * Makes the bytes the controller of a sheet, whatever they were, with no disk in the drive. Lend the sheet alone, with
 * nothing behind it. Its unread data are laid at the start of the transfer buffer; bytes behind them stay. Put its disk
 * in with floppy_set_disk, lend no less transfer room than before, and it goes on as the one that was written out.
 */
uint64_t floppy_read_sheet(uint8_t *controller, size_t length, uint8_t *transfer, size_t transfer_length,
                           const uint8_t *sheet, size_t sheet_length);

/* Loads a DSK image, normal or extended, into a store. */
uint64_t disk_new(const uint8_t *image, size_t image_length, uint8_t *table, size_t table_length, uint8_t *data,
                  size_t data_length);

/* Makes a store that of a freshly formatted disk: cylinders 0 to 39, nine sectors of 512 bytes each. */
uint64_t disk_new_formatted(uint8_t *table, size_t table_length, uint8_t *data, size_t data_length);

/*
 * Answers how long the disk is as an extended DSK image: kafondiye_image_length. Refused with KAFONDIYE_NO_IMAGE where
 * there is none: tracks that do not strictly rise by cylinder and side, a side over 1, more than 204 cylinders times
 * sides, a track of more than 29 sectors, or one that takes more than 65,280 bytes.
 */
uint64_t disk_image_length(const uint8_t *table, size_t table_length, const uint8_t *data, size_t data_length);

/*
 * Writes the disk as an extended DSK image to the start of the buffer, and answers its length: kafondiye_image_length.
 * Bytes behind it stay. disk_new of those bytes gives an equal disk.
 */
uint64_t disk_write_image(const uint8_t *table, size_t table_length, const uint8_t *data, size_t data_length,
                          uint8_t *image, size_t image_length);

/* Answers the greatest cylinder of side 0, and beside it that of the other sides: kafondiye_other_sides. */
uint64_t disk_geometry(const uint8_t *table, size_t table_length, const uint8_t *data, size_t data_length);

/*
 * Answers 1 where there is a sector with the ID c, h, r, n on the first track of that side and cylinder, and which of
 * the track it is: kafondiye_place_in_track, kafondiye_count_of_id. 0 where there is none.
 */
uint64_t disk_has_sector(const uint8_t *table, size_t table_length, const uint8_t *data, size_t data_length,
                         uint8_t side, uint8_t cylinder, uint8_t c, uint8_t h, uint8_t r, uint8_t n);

/*
 * Finds the bytes of that sector in the data buffer: kafondiye_place, kafondiye_length; and which of the track it is:
 * kafondiye_place_in_track, kafondiye_count_of_id. Not a word as above: 0 where there is none or the store is refused,
 * and only then. A sector that is there may have no bytes, but it has a place in its track.
 */
uint64_t disk_sector(const uint8_t *table, size_t table_length, const uint8_t *data, size_t data_length,
                     uint8_t side, uint8_t cylinder, uint8_t c, uint8_t h, uint8_t r, uint8_t n);

#ifdef __cplusplus
}
#endif

#endif
