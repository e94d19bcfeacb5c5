//! The exported calls with their words taken apart: a byte, a flag, a length or a sector, or the refusal.

use crate::{Machine, Match, Refusal, Report, SectorId, words};

/// How many bytes a controller has.
pub fn controller_length() -> usize {
    length(words::lengths().0)
}

/// How many bytes a disk's table has.
pub fn table_length() -> usize {
    length(words::lengths().1)
}

/// How many bytes the longest sheet has.
pub fn sheet_length() -> usize {
    length(words::sheet_length())
}

/// Makes the bytes those of a new controller of this machine.
pub fn new_with(controller: &mut [u8], machine: Machine) -> Result<(), Refusal> {
    done(words::new_with(controller, machine.setting()))
}

/// Which machine a controller is.
pub fn machine(controller: &[u8]) -> Result<Machine, Refusal> {
    answer(words::setting(controller)).map(Machine::of_setting)
}

/// Switches the motor.
pub fn set_motor(controller: &mut [u8], on: bool) -> Result<(), Refusal> {
    done(words::set_motor(controller, on.into()))
}

/// Whether the motor is on.
pub fn motor(controller: &[u8]) -> Result<bool, Refusal> {
    flag(words::motor(controller))
}

/// The cylinder that the head is over.
pub fn current_track(controller: &[u8]) -> Result<u8, Refusal> {
    answer(words::current_track(controller))
}

/// Says whether a disk is in the drive.
pub fn set_disk(controller: &mut [u8], present: bool) -> Result<(), Refusal> {
    done(words::set_disk(controller, present.into()))
}

/// Whether a disk is in the drive.
pub fn disk(controller: &[u8]) -> Result<bool, Refusal> {
    flag(words::disk(controller))
}

/// Reads the main status.
pub fn read_status(controller: &mut [u8]) -> Result<u8, Refusal> {
    answer(words::read_status(controller))
}

/// Reads a byte from the data port.
pub fn read_cmd(controller: &mut [u8], transfer: &[u8]) -> Result<u8, Refusal> {
    answer(words::read_cmd(controller, transfer))
}

/// Sends a byte to the data port.
pub fn write_cmd(
    controller: &mut [u8],
    table: &mut [u8],
    data: &mut [u8],
    transfer: &mut [u8],
    b: u8,
) -> Result<Report, Refusal> {
    let word = words::write_cmd(controller, table, data, transfer, b);
    done(word)?;
    let sector = found(word);
    Ok(Report { sector })
}

/// Writes the controller out as a sheet to the buffer's start, and says how long it is.
pub fn write_sheet(controller: &[u8], transfer: &[u8], sheet: &mut [u8]) -> Result<usize, Refusal> {
    extent(words::write_sheet(controller, transfer, sheet))
}

/// Makes the bytes the controller of a sheet, with no disk.
pub fn read_sheet(controller: &mut [u8], transfer: &mut [u8], sheet: &[u8]) -> Result<(), Refusal> {
    done(words::read_sheet(controller, transfer, sheet))
}

/// Loads an image into a store.
pub fn load(image: &[u8], table: &mut [u8], data: &mut [u8]) -> Result<(), Refusal> {
    done(words::disk_new(image, table, data))
}

/// Makes a store that of a freshly formatted disk.
pub fn new_formatted(table: &mut [u8], data: &mut [u8]) -> Result<(), Refusal> {
    done(words::disk_new_formatted(table, data))
}

/// How long the extended image of a store's disk is.
pub fn image_length(table: &[u8], data: &[u8]) -> Result<usize, Refusal> {
    extent(words::image_length(table, data))
}

/// Writes a store's disk as an extended image to the buffer's start, and says how long it is.
pub fn write_image(table: &[u8], data: &[u8], image: &mut [u8]) -> Result<usize, Refusal> {
    extent(words::write_image(table, data, image))
}

/// The greatest cylinder of side 0, and of the other sides.
pub fn geometry(table: &[u8], data: &[u8]) -> Result<(u8, u8), Refusal> {
    let word = words::geometry(table, data);
    Ok((answer(word)?, (word >> 16) as u8))
}

/// Which sector of its track is found at that address.
pub fn has_sector(
    table: &[u8],
    data: &[u8],
    side: u8,
    cylinder: u8,
    SectorId { c, h, r, n }: SectorId,
) -> Result<Option<Match>, Refusal> {
    let word = words::has_sector(table, data, [side, cylinder, c, h, r, n]);
    done(word)?;
    Ok(found(word))
}

/// The bytes of the sector at that address, if there is one and the store holds a disk.
pub fn sector<'a>(
    table: &[u8],
    data: &'a [u8],
    side: u8,
    cylinder: u8,
    SectorId { c, h, r, n }: SectorId,
) -> Option<&'a [u8]> {
    let word = words::sector(table, data, [side, cylinder, c, h, r, n]);
    found(word)?;
    let place = high(word);
    Some(&data[place..place + stored(word)])
}

/// The length in bits 0 to 31 of a word.
fn length(word: u64) -> usize {
    word as u32 as usize
}

/// The length of a sector's bytes in bits 0 to 15 of a word.
fn stored(word: u64) -> usize {
    (word as u16).into()
}

/// The sector that a word tells of, if one was found: its place in the track in bits 16 to 23, and in bits 24 to 31 how
/// many sectors of the track bear its ID.
fn found(word: u64) -> Option<Match> {
    let (place, count) = ((word >> 16) as u8, (word >> 24) as u8);
    (place != 0).then_some(Match { place, count })
}

/// The place or the length in bits 32 to 63 of a word.
fn high(word: u64) -> usize {
    (word >> 32) as usize
}

/// The byte that an answer word bears, or its refusal.
fn answer(word: u64) -> Result<u8, Refusal> {
    match (word >> 8) as u8 {
        0 => Ok(word as u8),
        number => Err(Refusal::from_number(number).unwrap_or_else(|| {
            panic!("the library answers refusal {number}, which this crate does not know: they are of two versions")
        })),
    }
}

/// The length that the answer word of a call that writes bears, or its refusal.
fn extent(word: u64) -> Result<usize, Refusal> {
    answer(word).map(|_| high(word))
}

/// The flag that an answer word bears, or its refusal.
fn flag(word: u64) -> Result<bool, Refusal> {
    Ok(answer(word)? != 0)
}

/// The answer of a call that has none but its refusal.
fn done(word: u64) -> Result<(), Refusal> {
    answer(word).map(|_| ())
}

#[cfg(test)]
mod tests {
    use super::*;

    /// Where numbers of a controller stand. The goal of a write is c, h, r and n of its sector, or n, count, gap and
    /// filler of a Format; the kind tells which.
    const WRITE: usize = 31;
    const C1: usize = 32;
    const GOAL: usize = 33;
    const TAKEN: usize = 37;
    const SETTING: usize = 42;
    const KIND: usize = 43;

    #[test]
    fn lengths_are_those_of_the_documents() {
        assert_eq!(controller_length(), 1_068);
        assert_eq!(table_length(), 17_609);
        assert_eq!(sheet_length(), 66_615);
    }

    #[test]
    fn a_refused_call_answers_its_number_alone() {
        let mut own = vec![0; controller_length() + 1];
        let mut table = vec![0; table_length()];
        let mut data = [0; 1];
        let image = [0; 12];
        let new = vec![0; controller_length()];
        let mut sheet = [0; 35];
        let words = [
            words::new(&mut own),
            words::new_with(&mut own, 1),
            words::setting(&own),
            words::motor(&own),
            words::geometry(&table[1..], &data),
            words::disk_new(&image[1..], &mut table, &mut data),
            words::disk_new(&image, &mut table, &mut data),
            words::disk_new_formatted(&mut table, &mut data),
            words::write_sheet(&own, &[], &mut sheet),
            words::write_sheet(&new, &[], &mut sheet),
            words::image_length(&table[1..], &data),
            words::write_image(&table[1..], &data, &mut sheet),
            words::write_image(&table, &data, &mut sheet),
        ];
        let numbers = [1, 1, 1, 1, 2, 3, 4, 8, 1, 13, 2, 2, 13];
        assert_eq!(words, numbers.map(|number| number << 8));
    }

    #[test]
    fn a_sheet_stands_at_the_buffers_start_and_the_bytes_behind_it_stay() {
        let new = vec![0; controller_length()];
        let mut sheet = [7; 37];
        assert_eq!(words::write_sheet(&new, &[], &mut sheet), 36 << 32);
        assert_eq!(sheet[..5], [2, 0, 0, 0, 31]);
        assert_eq!(sheet[36], 7);
    }

    #[test]
    fn a_new_controller_is_zeros_but_for_the_setting_of_which_bit_0_counts() {
        for (setting, machine) in [(0, 0), (1, 1), (2, 0), (0xfe, 0), (0xff, 1)] {
            let mut own = vec![5; controller_length()];
            assert_eq!(words::new_with(&mut own, setting), 0);
            assert_eq!(words::setting(&own), machine);
            assert_eq!(std::mem::take(&mut own[SETTING]), machine as u8);
            assert_eq!(own, vec![0; controller_length()]);
        }
    }

    #[test]
    fn a_format_that_no_controller_has_is_1() {
        // Setting, c1, n, count, gap and filler, and how many bytes are held.
        let cases = [
            (1, 0, [0, 1, 0, 0], 3, 0),
            (1, 4, [2, 9, 0x2a, 0xe5], 35, 0),
            (1, 4, [2, 9, 0x2a, 0xe5], 36, 1),
            (1, 0, [0, 250, 0, 0], 200, 0),
            (1, 0, [3, 0, 0, 3], 0, 1),
            (1, 1, [0, 1, 0, 0], 0, 1),
            (0, 0, [0, 1, 0, 0], 0, 1),
        ];
        for (setting, c1, goal, taken, number) in cases {
            let mut own = vec![0; controller_length()];
            (own[SETTING], own[WRITE], own[KIND]) = (setting, 1, 1);
            (own[C1], own[TAKEN]) = (c1, taken);
            own[GOAL..TAKEN].copy_from_slice(&goal);
            assert_eq!(words::motor(&own), number << 8);
        }
    }

    #[test]
    fn a_setting_and_a_kind_of_write_over_1_are_1_also_where_there_is_no_write() {
        // Setting, write in progress, and its kind.
        let cases = [
            ([1, 0, 1], 0),
            ([0, 0, 1], 0),
            ([0, 1, 0], 0),
            ([2, 0, 0], 1),
            ([2, 1, 0], 1),
            ([0, 0, 2], 1),
            ([1, 0, 2], 1),
            ([1, 1, 2], 1),
        ];
        for ([setting, write, kind], number) in cases {
            let mut own = vec![0; controller_length()];
            (own[SETTING], own[WRITE], own[KIND]) = (setting, write, kind);
            assert_eq!(words::motor(&own), number << 8);
        }
    }

    /// The image of a disk without tracks: the text, no cylinder and one side.
    fn empty_image() -> Vec<u8> {
        let mut image = b"EXTENDED CPC DSK File\r\nDisk-Info\r\n".to_vec();
        image.resize(256, 0);
        image[0x31] = 1;
        image
    }

    #[test]
    fn an_image_stands_at_the_buffers_start_and_the_bytes_behind_it_stay() {
        let table = vec![0; table_length()];
        let mut image = [7; 258];
        assert_eq!(words::image_length(&table, &[]), 256 << 32);
        assert_eq!(words::write_image(&table, &[], &mut image), 256 << 32);
        assert_eq!(image[..256], empty_image());
        assert_eq!(image[256..], [7; 2]);
    }

    #[test]
    fn an_image_is_refused_with_2_then_12_then_13_and_no_byte_changes() {
        let mut twice = vec![0; table_length()];
        twice[0] = 2; // two tracks of cylinder 0 and side 0
        let cases = [
            (vec![205; table_length()], 2),
            (twice, 12),
            (vec![0; table_length()], 13),
        ];
        for (table, number) in cases {
            let mut image = [7; 255];
            assert_eq!(words::write_image(&table, &[], &mut image), number << 8);
            assert_eq!(image, [7; 255]);
        }
    }

    /// The sheet of a controller that is new but for two unread bytes, 8 and 9.
    const TWO_UNREAD: [u8; 38] = [
        2, 0, 0, 0, 33, // version, length of the rest
        0, 1, 0, 0, 1, 0, 0, 1, 0, 0, 2, 0, 0, // motor, cylinder, seek state, ID index
        0, 0, 0, 0, // no command, no reply
        0, 0, 0, 2, 8, 9, // unread data
        0, 1, 0, 0, 0, // lost count, no write
        0, 1, 0, 0, 0, // the Rust machine, no Format
    ];

    #[test]
    fn a_sheet_that_is_read_leaves_the_transfer_bytes_behind_its_data() {
        let mut own = vec![5; controller_length()];
        let mut transfer = [5; 3];
        let word = words::read_sheet(&mut own, &mut transfer, &TWO_UNREAD);
        assert_eq!(word, 0);
        assert_eq!(transfer, [8, 9, 5]);
        assert_eq!(disk(&own), Ok(false));
        assert_eq!(read_cmd(&mut own, &transfer), Ok(8));
    }

    #[test]
    fn a_sheet_is_refused_with_1_then_11_then_9_and_no_byte_changes() {
        let mut bad = TWO_UNREAD;
        bad[0] = 3;
        let length = controller_length();
        let cases = [
            (length - 1, bad, 1),
            (length + 1, TWO_UNREAD, 1),
            (length, bad, 11),
            (length, TWO_UNREAD, 9),
        ];
        for (length, sheet, number) in cases {
            let mut own = vec![5; length];
            let mut transfer = [5; 1];
            let word = words::read_sheet(&mut own, &mut transfer, &sheet);
            assert_eq!(word, number << 8);
            assert_eq!((own, transfer), (vec![5; length], [5; 1]));
        }
    }

    #[test]
    fn words_tell_of_a_sector_in_bits_16_to_31() {
        let (mut table, mut data) = (vec![0; table_length()], vec![0; 184_320]);
        assert_eq!(words::disk_new_formatted(&mut table, &mut data), 0);
        let last = [0, 39, 39, 0, 9, 2];
        let place: u64 = 359 * 512;
        assert_eq!(words::has_sector(&table, &data, last), 0x0109_0001);
        let word = words::sector(&table, &data, last);
        assert_eq!(word, place << 32 | 0x0109_0200);
        for none in [[1, 39, 39, 0, 9, 2], [0, 39, 39, 0, 10, 2]] {
            assert_eq!(words::has_sector(&table, &data, none), 0);
            assert_eq!(words::sector(&table, &data, none), 0);
        }
    }

    #[test]
    fn an_id_three_times_on_a_track_is_place_1_of_3_in_both_words() {
        let (mut table, data) = (vec![0; table_length()], vec![0; 384]);
        table[..7].copy_from_slice(&[1, 0, 0, 0, 0x2a, 0xe5, 3]);
        for row in table[7..31].chunks_mut(8) {
            row.copy_from_slice(&[0, 0, 1, 0, 0, 0, 128, 0]);
        }
        let first = [0, 0, 0, 0, 1, 0];
        assert_eq!(words::has_sector(&table, &data, first), 0x0301_0001);
        assert_eq!(words::sector(&table, &data, first), 0x0301_0080);
    }

    #[test]
    fn a_refused_read_answers_its_number_alone_and_tells_of_its_sector_when_it_is_taken() {
        let (mut table, mut data) = (vec![0; table_length()], vec![0; 184_320]);
        let mut own = vec![0; controller_length()];
        assert_eq!(words::disk_new_formatted(&mut table, &mut data), 0);
        assert_eq!(words::set_disk(&mut own, 1), 0);
        let mut send = |room, b| {
            let mut transfer = vec![0; room];
            words::write_cmd(&mut own, &mut table, &mut data, &mut transfer, b)
        };
        for b in [0x46, 0x00, 0x00, 0x00, 0x05, 0x02, 0x05, 0x2a] {
            assert_eq!(send(512, b), 0);
        }
        assert_eq!(send(511, 0xff), 9 << 8);
        assert_eq!(send(512, 0xff), 0x0105_0000);
    }

    #[test]
    fn a_word_is_taken_apart() {
        let all = u64::MAX;
        assert_eq!(stored(all), 65_535);
        assert_eq!(found(all & 0xffff), None);
        let sector = Match {
            place: 255,
            count: 2,
        };
        assert_eq!(found(0x02ff_0001), Some(sector));
        assert_eq!(found(7 << 32 | 0x02ff_0200), Some(sector));
    }

    #[test]
    fn an_empty_store_has_no_sector_and_no_place() {
        let id = SectorId {
            c: 0,
            h: 0,
            r: 1,
            n: 2,
        };
        assert_eq!(has_sector(&[], &[], 0, 0, id), Err(Refusal::BadStore));
        assert_eq!(sector(&[], &[], 0, 0, id), None);
    }
}
