//! A session that is kept, the controller as its sheet, and taken up again.

use kafondiye::{Controller, Disk, Machine, Refusal, Report, SectorId};

use crate::images::{self, Track};
use crate::{FIRST, everything, format, fresh, pattern, read, read_data, seek, send, status};
use crate::{taken_up, write_data};

/// A box, its length in so many bytes first.
fn boxed(wide: usize, bytes: &[u8]) -> Vec<u8> {
    let length = (bytes.len() as u32).to_be_bytes();
    [&length[4 - wide..], bytes].concat()
}

/// The boxes of a sheet, in their order: motor, cylinder, seek state, ID index, command, reply, unread data, lost
/// count, write, machine, Format.
type Boxes<'a> = [&'a [u8]; 11];

/// The boxes of a new controller.
const NEW: Boxes = [
    &[0],
    &[0],
    &[0],
    &[0, 0],
    &[],
    &[],
    &[],
    &[0],
    &[],
    &[0],
    &[],
];

/// These boxes in the house form.
fn sheet(boxes: Boxes) -> Vec<u8> {
    framed(2, &boxes)
}

/// The first nine of these boxes as a sheet of version 1.
fn old_sheet(boxes: Boxes) -> Vec<u8> {
    framed(1, &boxes[..9])
}

/// Boxes behind a version and their length.
fn framed(version: u8, boxes: &[&[u8]]) -> Vec<u8> {
    let wide = |place| if place == 6 { 4 } else { 2 };
    let places = boxes.iter().enumerate();
    let rest: Vec<u8> = places
        .flat_map(|(k, bytes)| boxed(wide(k), bytes))
        .collect();
    [vec![version], boxed(4, &rest)].concat()
}

/// The sheet of a new controller with another box in one place.
fn with_box(place: usize, bytes: &[u8]) -> Vec<u8> {
    let mut boxes = NEW;
    boxes[place] = bytes;
    sheet(boxes)
}

/// Why a sheet is refused, in the largest room.
fn refusal(sheet: &[u8]) -> Option<Refusal> {
    Controller::from_sheet(sheet).err()
}

#[test]
fn a_new_controller_has_every_box_and_36_bytes() {
    let bytes = Controller::new().to_sheet();
    assert_eq!(bytes, sheet(NEW));
    assert_eq!(bytes.len(), 36);
    let other = Controller::new_with(Machine::DataSheet).to_sheet();
    assert_eq!(other, with_box(9, &[1]));
}

#[test]
fn a_sheet_has_each_box_in_the_house_form() {
    let mut controller = fresh();
    controller.set_motor(true);
    send(&mut controller, &[0x4a, 0x00]);
    send(&mut controller, &read_data(FIRST, 1));
    send(&mut controller, &seek(5));
    // The reply of a Sense Drive, of which nothing is read, stands behind the unread data.
    send(&mut controller, &[0x04, 0x00]);
    read(&mut controller, 510);
    status(&mut controller);
    send(&mut controller, &[0x0f, 0x00]);
    let boxes: Boxes = [
        &[1],
        &[5],
        &[1],
        &[0, 1],
        &[0x0f, 0x00],
        &[0x28],
        &[0xe5, 0xe5],
        &[1],
        &[],
        &[0],
        &[],
    ];
    assert_eq!(controller.to_sheet(), sheet(boxes));
}

#[test]
fn a_write_in_progress_is_c1_the_id_and_its_bytes_so_far() {
    let mut controller = fresh();
    send(&mut controller, &write_data(FIRST));
    let begun = with_box(8, &[0x00, 0, 0, 1, 2]);
    assert_eq!(controller.to_sheet(), begun);
    send(&mut controller, &[7, 8, 9]);
    let further = with_box(8, &[0x00, 0, 0, 1, 2, 7, 8, 9]);
    assert_eq!(controller.to_sheet(), further);
}

/// The sheet of a new controller of this machine but for a Format, with these bytes in its box.
fn with_format(machine: u8, bytes: &[u8]) -> Vec<u8> {
    let mut boxes = NEW;
    let machine = [machine];
    (boxes[9], boxes[10]) = (&machine, bytes);
    sheet(boxes)
}

#[test]
fn a_format_in_progress_is_c1_its_numbers_and_the_ids_so_far() {
    let mut controller = Controller::new_with(Machine::DataSheet);
    controller.set_disk(Some(Disk::new_formatted()));
    send(&mut controller, &format(2, 9, 0xaa));
    let begun = with_format(1, &[0x00, 2, 9, 0x2a, 0xaa]);
    assert_eq!(controller.to_sheet(), begun);
    send(&mut controller, &[0, 0, 0xc1]);
    let further = with_format(1, &[0x00, 2, 9, 0x2a, 0xaa, 0, 0, 0xc1]);
    assert_eq!(controller.to_sheet(), further);
}

#[test]
fn a_sheet_of_version_1_is_read_as_the_rust_machine() {
    let mut boxes = NEW;
    (boxes[1], boxes[5]) = (&[5], &[0x28]);
    let mut taken = Controller::from_sheet(&old_sheet(boxes)).expect("a sheet");
    assert_eq!(taken.machine(), Machine::Rust);
    assert_eq!(taken.to_sheet(), sheet(boxes));
    send(&mut taken, &[0x00]);
    assert_eq!(read(&mut taken, 2), [0x28, 0x00]);
    send(&mut taken, &[0x08]);
    assert_eq!(read(&mut taken, 2), [0x80, 0x05]);
}

#[test]
fn boxes_of_one_version_under_the_other_are_11() {
    let [mut old, mut new] = [old_sheet(NEW), sheet(NEW)];
    (old[0], new[0]) = (2, 1);
    for bytes in [old, new] {
        assert_eq!(refusal(&bytes), Some(Refusal::BadSheet));
    }
}

#[test]
fn a_machine_over_1_or_of_another_length_is_11() {
    for bytes in [&[2][..], &[255], &[], &[0, 0]] {
        assert_eq!(refusal(&with_box(9, bytes)), Some(Refusal::BadSheet));
    }
}

#[test]
fn a_format_that_is_whole_or_of_another_drive_or_machine_or_too_short_is_11() {
    let format = |machine, c1: u8, count: u8, taken: usize| {
        let head = [c1, 2, count, 0x2a, 0xaa];
        refusal(&with_format(
            machine,
            &[&head[..], &vec![0; taken]].concat(),
        ))
    };
    let bad = Some(Refusal::BadSheet);
    for count in [1, 9, 255] {
        let whole = 4 * usize::from(count);
        assert_eq!(format(1, 4, count, whole - 1), None);
        assert_eq!(format(1, 4, count, whole), bad);
    }
    assert_eq!(format(1, 0, 0, 0), bad);
    assert_eq!(format(1, 1, 9, 0), bad);
    assert_eq!(format(0, 0, 9, 0), bad);
    for length in 1..5 {
        assert_eq!(refusal(&with_format(1, &[0, 2, 9, 0][..length])), bad);
    }
}

#[test]
fn a_format_beside_a_write_is_11() {
    let mut boxes = NEW;
    (boxes[8], boxes[9]) = (&[0, 0, 0, 1, 2], &[1]);
    assert_eq!(refusal(&sheet(boxes)), None);
    boxes[10] = &[0, 2, 9, 0x2a, 0xaa];
    assert_eq!(refusal(&sheet(boxes)), Some(Refusal::BadSheet));
}

#[test]
fn a_session_that_is_taken_up_is_the_same() {
    let mut controller = fresh();
    controller.set_motor(true);
    send(&mut controller, &seek(12));
    send(&mut controller, &read_data(SectorId { c: 12, ..FIRST }, 9));
    assert!(everything(&taken_up(&controller)) == everything(&controller));
    controller.set_disk(None);
    assert!(everything(&taken_up(&controller)) == everything(&controller));
}

#[test]
fn what_is_over_is_on_no_sheet() {
    let mut controller = fresh();
    send(&mut controller, &write_data(FIRST));
    send(&mut controller, &pattern(5, 512));
    read(&mut controller, 7);
    send(&mut controller, &read_data(FIRST, 1));
    read(&mut controller, 512 + 7);
    assert_eq!(controller.to_sheet(), Controller::new().to_sheet());
}

#[test]
fn a_controller_from_a_sheet_has_no_disk_until_one_is_put_in() {
    let mut taken = Controller::from_sheet(&fresh().to_sheet()).expect("a sheet");
    assert!(taken.disk().is_none());
    send(&mut taken, &read_data(FIRST, 1));
    assert_eq!(read(&mut taken, 1), [0xc8]);
}

#[test]
fn a_write_goes_on_where_it_was_left() {
    let mut controller = fresh();
    let bytes = pattern(21, 512);
    send(&mut controller, &write_data(FIRST));
    send(&mut controller, &bytes[..300]);
    let mut taken = taken_up(&controller);
    assert_eq!(status(&mut taken), 0xb0);
    send(&mut taken, &bytes[300..]);
    let disk = taken.disk().expect("a disk");
    assert_eq!(disk.sector(0, 0, FIRST), Some(&bytes[..]));
}

#[test]
fn unread_data_are_read_where_they_were_left() {
    let mut controller = fresh();
    let bytes = pattern(22, 512);
    send(&mut controller, &write_data(FIRST));
    send(&mut controller, &bytes);
    send(&mut controller, &read_data(FIRST, 1));
    read(&mut controller, 100);
    let mut taken = taken_up(&controller);
    assert_eq!(read(&mut taken, 412), &bytes[100..]);
    assert_eq!(read(&mut taken, 1), [0x40]);
}

/// A disk of one track with two sectors of 128 bytes.
fn small_disk() -> Disk {
    let sector = |r| (SectorId { n: 0, r, ..FIRST }, pattern(r, 128));
    let track = Track {
        cylinder: 0,
        sectors: vec![sector(1), sector(2)],
    };
    Disk::from_image_with_room(&images::extended(&[track]), 300).expect("a good image")
}

/// A call of a session.
#[derive(Clone, Copy)]
enum Call {
    Send(u8),
    Status,
    Read,
}

/// A session that uses every box: a seek, a save and a read that is lost in part.
fn session() -> Vec<Call> {
    let id = SectorId { n: 0, ..FIRST };
    let sent = |bytes: &[u8]| bytes.iter().map(|&byte| Call::Send(byte)).collect();
    let parts: [Vec<Call>; 9] = [
        sent(&[0x0f, 0x00, 0x00, 0x08]),
        vec![Call::Status, Call::Read, Call::Status, Call::Read],
        sent(&[0x4a, 0x00]),
        vec![Call::Read; 4],
        sent(&write_data(id)),
        sent(&pattern(9, 128)),
        sent(&read_data(id, 2)),
        [Call::Read, Call::Status, Call::Status, Call::Status].repeat(30),
        vec![Call::Read; 150],
    ];
    parts.concat()
}

/// What a call answers: a byte, or a report.
fn answer(controller: &mut Controller, call: Call) -> Result<(u8, Report), Refusal> {
    let byte = match call {
        Call::Send(byte) => return controller.write_cmd(byte).map(|report| (0, report)),
        Call::Status => controller.read_status()?,
        Call::Read => controller.read_cmd()?,
    };
    Ok((byte, Report::default()))
}

#[test]
fn wherever_it_is_paused_a_session_goes_on_alike() {
    let calls = session();
    let mut controller = Controller::with_transfer_room(256);
    controller.set_disk(Some(small_disk()));
    for place in 0..calls.len() {
        let mut on = controller.clone();
        let mut taken = taken_up(&controller);
        for &call in &calls[place..] {
            assert_eq!(answer(&mut on, call), answer(&mut taken, call));
        }
        assert!(everything(&on) == everything(&taken), "paused at {place}");
        answer(&mut controller, calls[place]).expect("a good call");
    }
}

#[test]
fn the_transfer_room_is_the_largest_or_the_one_that_is_named() {
    let bytes = Controller::with_transfer_room(700).to_sheet();
    let largest = Controller::LARGEST_TRANSFER_ROOM;
    let taken = Controller::from_sheet(&bytes);
    assert_eq!(taken.map(|taken| taken.transfer_room()), Ok(largest));
    for (named, room) in [(0, 0), (700, 700), (usize::MAX, largest)] {
        let taken = Controller::from_sheet_with_transfer_room(&bytes, named);
        assert_eq!(taken.map(|taken| taken.transfer_room()), Ok(room));
    }
}

#[test]
fn data_room_beyond_the_largest_is_left_out() {
    let disk = Disk::new_formatted();
    let data = vec![0; Disk::LARGEST_ROOM + 1];
    let disk = Disk::from_parts(disk.table().to_vec(), data).expect("good parts");
    assert_eq!(disk.room(), Disk::LARGEST_ROOM);
}

#[test]
fn unread_data_over_the_room_are_9() {
    let mut controller = fresh();
    send(&mut controller, &read_data(FIRST, 1));
    read(&mut controller, 12);
    let bytes = controller.to_sheet();
    let with_room = |room| Controller::from_sheet_with_transfer_room(&bytes, room);
    assert_eq!(with_room(499).err(), Some(Refusal::NoTransferRoom));
    let mut taken = with_room(500).expect("room enough");
    assert_eq!(read(&mut taken, 500), [0xe5; 500]);
}

#[test]
fn unread_data_over_65536_bytes_are_9_in_any_room() {
    let most = with_box(6, &vec![3; 65_536]);
    assert_eq!(refusal(&most), None);
    let over = with_box(6, &vec![3; 65_537]);
    assert_eq!(refusal(&over), Some(Refusal::NoTransferRoom));
}

#[test]
fn the_longest_sheet_has_66615_bytes() {
    let boxes: Boxes = [
        &[1],
        &[255],
        &[2],
        &[255, 255],
        &[0x46; 8],
        &[255; 7],
        &[255; 65_536],
        &[2],
        &[[0, 0, 0, 1, 3].as_slice(), &[255; 1_023]].concat(),
        &[1],
        &[],
    ];
    let longest = sheet(boxes);
    assert_eq!(longest.len(), 66_615);
    let taken = Controller::from_sheet(&longest).expect("a sheet");
    assert!(taken.to_sheet() == longest);
}

#[test]
fn a_sheet_that_is_cut_short_or_goes_on_is_11() {
    let mut controller = fresh();
    send(&mut controller, &write_data(FIRST));
    send(&mut controller, &pattern(1, 20));
    let bytes = controller.to_sheet();
    for length in 0..bytes.len() {
        assert_eq!(refusal(&bytes[..length]), Some(Refusal::BadSheet));
    }
    let longer = [&bytes[..], &[0]].concat();
    assert_eq!(refusal(&longer), Some(Refusal::BadSheet));
    // So is one with room for the byte in its length.
    let mut counted = longer;
    counted[4] += 1;
    assert_eq!(refusal(&counted), Some(Refusal::BadSheet));
}

#[test]
fn another_version_is_11() {
    let mut bytes = sheet(NEW);
    for version in [0, 3, 255] {
        bytes[0] = version;
        assert_eq!(refusal(&bytes), Some(Refusal::BadSheet));
    }
}

#[test]
fn a_number_of_another_length_is_11() {
    for (place, length) in [(0, 1), (1, 1), (2, 1), (3, 2), (7, 1)] {
        for wrong in [0, length - 1, length + 1] {
            if wrong != length {
                let bytes = with_box(place, &vec![0; wrong]);
                assert_eq!(refusal(&bytes), Some(Refusal::BadSheet));
            }
        }
    }
}

#[test]
fn a_motor_over_1_and_a_seek_state_or_lost_count_over_2_are_11() {
    for (place, most) in [(0, 1), (2, 2), (7, 2)] {
        assert_eq!(refusal(&with_box(place, &[most])), None);
        let over = with_box(place, &[most + 1]);
        assert_eq!(refusal(&over), Some(Refusal::BadSheet));
    }
}

#[test]
fn a_command_with_its_last_byte_is_11() {
    for (first, length) in [(0x08, 1), (0x0f, 3), (0x46, 9), (0x4d, 6)] {
        let command = [[first].as_slice(), &[0; 8]].concat();
        assert_eq!(refusal(&with_box(4, &command[..length - 1])), None);
        let whole = with_box(4, &command[..length]);
        assert_eq!(refusal(&whole), Some(Refusal::BadSheet));
    }
}

#[test]
fn a_reply_of_8_bytes_is_11() {
    assert_eq!(refusal(&with_box(5, &[0; 7])), None);
    assert_eq!(refusal(&with_box(5, &[0; 8])), Some(Refusal::BadSheet));
}

#[test]
fn a_write_that_is_whole_or_of_another_drive_or_has_no_id_is_11() {
    let write = |c1: u8, n: u8, taken: usize| {
        let head = [c1, 0, 0, 1, n];
        refusal(&with_box(8, &[&head[..], &vec![0; taken]].concat()))
    };
    for (n, size) in [(0, 128), (3, 1_024), (4, 128)] {
        assert_eq!(write(0, n, size - 1), None);
        assert_eq!(write(0, n, size), Some(Refusal::BadSheet));
    }
    assert_eq!(write(4, 0, 0), None);
    assert_eq!(write(1, 0, 0), Some(Refusal::BadSheet));
    for length in 1..5 {
        let bytes = with_box(8, &vec![0; length]);
        assert_eq!(refusal(&bytes), Some(Refusal::BadSheet));
    }
}

#[test]
fn a_sheet_that_is_none_is_11_before_9() {
    let mut bytes = with_box(6, &[0; 20]);
    let no_room = |bytes: &[u8]| Controller::from_sheet_with_transfer_room(bytes, 0).err();
    assert_eq!(no_room(&bytes), Some(Refusal::NoTransferRoom));
    bytes[0] = 3;
    assert_eq!(no_room(&bytes), Some(Refusal::BadSheet));
}

#[test]
fn bytes_that_no_controller_gave_are_11() {
    assert_eq!(refusal(&[0xff; 66_615]), Some(Refusal::BadSheet));
    assert_eq!(refusal(&[]), Some(Refusal::BadSheet));
}
