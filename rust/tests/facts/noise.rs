//! Bytes that something else has changed, or that came by chance: they are refused, or they make a controller or disk
//! on which every call answers.

use kafondiye::{Controller, Disk, Machine, Refusal, SectorId};

use crate::images::{self, Track};
use crate::{FIRST, format, fresh, read, read_data, seek, send, write_data};

/// Values that a changed byte takes: small ones, the greatest, and those around the limits of fields.
const VALUES: [u8; 9] = [0, 1, 2, 3, 4, 8, 9, 127, 255];

/// A disk of two small tracks in little room.
fn small_disk() -> Disk {
    let track = |cylinder| {
        let sector = |r| (SectorId { n: 0, r, ..FIRST }, vec![r; 128]);
        let sectors = vec![sector(1), sector(2)];
        Track { cylinder, sectors }
    };
    let image = images::extended(&[track(0), track(1)]);
    Disk::from_image_with_room(&image, 600).expect("a good image")
}

/// Controllers of the data-sheet machine in the middle of something, without a disk.
fn controllers() -> Vec<Controller> {
    let id = SectorId { n: 0, ..FIRST };
    let begun: [&[u8]; 6] = [
        &[],
        &[0x46, 0x00, 0x00],
        &read_data(id, 2),
        &[&write_data(id)[..], &[7; 100]].concat(),
        &seek(1),
        &[&format(0, 3, 0)[..], &[7; 5]].concat(),
    ];
    let start = |bytes: &[u8]| {
        let mut controller = Controller::new_with(Machine::DataSheet);
        controller.set_transfer_room(300).expect("nothing was read");
        controller.set_disk(Some(small_disk()));
        send(&mut controller, bytes);
        controller.set_disk(None);
        controller
    };
    begun.map(start).into()
}

/// Sends commands to a controller, whatever they do, and sees that none of them is refused with 1 or 2.
fn runs(mut controller: Controller, disk: Disk) -> Disk {
    controller.set_disk(Some(disk));
    let id = SectorId { n: 0, ..FIRST };
    let commands: [&[u8]; 4] = [
        &read_data(id, 2),
        &format(0, 1, 0),
        &write_data(id),
        &[5; 128],
    ];
    for byte in commands.concat() {
        controller.read_status().expect("a status");
        controller.read_cmd().expect("a byte");
        let refusal = controller.write_cmd(byte).err();
        let bad = [Refusal::BadController, Refusal::BadStore];
        assert!(refusal.is_none_or(|refusal| !bad.contains(&refusal)));
    }
    controller.set_disk(None).expect("the disk")
}

#[test]
fn a_sheet_with_a_changed_byte_is_11_or_runs() {
    let disk = small_disk();
    for controller in controllers() {
        let sheet = controller.to_sheet();
        for place in 0..sheet.len() {
            for value in VALUES {
                let mut sheet = sheet.clone();
                sheet[place] = value;
                match Controller::from_sheet_with_transfer_room(&sheet, 300) {
                    Ok(changed) => drop(runs(changed, disk.clone())),
                    Err(refusal) => assert_eq!(refusal, Refusal::BadSheet),
                }
            }
        }
    }
}

/// Numbers by chance, the same in every run.
struct Chance(u64);

impl Chance {
    /// A number below `end`.
    fn below(&mut self, end: usize) -> usize {
        self.0 ^= self.0 << 13;
        self.0 ^= self.0 >> 7;
        self.0 ^= self.0 << 17;
        (self.0 >> 32) as usize % end
    }

    /// A box by chance with this many bytes, small ones if it is one byte. One of many bytes has fewer, or none, and
    /// in rare cases one of few has a byte too many.
    fn boxed(&mut self, most: usize) -> Vec<u8> {
        let count = match most {
            1 | 2 => most + usize::from(self.below(40) == 0),
            _ => self.below(2) * self.below(most + 1),
        };
        let end = if most == 1 { 3 } else { 256 };
        (0..count).map(|_| self.below(end) as u8).collect()
    }

    /// Boxes by chance in the form of a sheet.
    fn sheet(&mut self) -> Vec<u8> {
        let mut rest = Vec::new();
        let lengths = [1, 1, 1, 2, 9, 8, 400, 1, 140, 1, 12];
        for (place, most) in lengths.into_iter().enumerate() {
            let bytes = self.boxed(most);
            let wide = if place == 6 { 4 } else { 2 };
            rest.extend(&(bytes.len() as u32).to_be_bytes()[4 - wide..]);
            rest.extend(bytes);
        }
        let length = (rest.len() as u32).to_be_bytes();
        [&[2], &length[..], &rest].concat()
    }
}

#[test]
fn bytes_by_chance_are_11() {
    let mut chance = Chance(1);
    for count in (0..80).cycle().take(8_000) {
        let bytes: Vec<u8> = (0..count).map(|_| chance.below(256) as u8).collect();
        let refusal = Controller::from_sheet_with_transfer_room(&bytes, 300).err();
        assert_eq!(refusal, Some(Refusal::BadSheet));
    }
}

#[test]
fn boxes_by_chance_are_11_or_9_or_run_and_give_their_sheet_again() {
    let disk = small_disk();
    let mut chance = Chance(2);
    let mut counts = [0; 3];
    for _ in 0..4_000 {
        let sheet = chance.sheet();
        let outcome = match Controller::from_sheet_with_transfer_room(&sheet, 300) {
            Ok(controller) => {
                assert!(controller.to_sheet() == sheet);
                runs(controller, disk.clone());
                0
            }
            Err(Refusal::NoTransferRoom) => 1,
            Err(refusal) => {
                assert_eq!(refusal, Refusal::BadSheet);
                2
            }
        };
        counts[outcome] += 1;
    }
    assert!(counts.iter().all(|&count| count > 10), "{counts:?}");
}

#[test]
fn a_table_with_a_changed_byte_is_2_or_holds_a_disk() {
    let disk = small_disk();
    for place in 0..50 {
        for value in VALUES {
            let mut table = disk.table().to_vec();
            table[place] = value;
            match Disk::from_parts(table, disk.data().to_vec()) {
                Ok(changed) => {
                    changed.geometry();
                    changed.sector(0, 0, SectorId { n: 0, ..FIRST });
                    runs(Controller::with_transfer_room(300), changed).geometry();
                }
                Err(refusal) => assert_eq!(refusal, Refusal::BadStore),
            }
        }
    }
}

#[test]
fn controllers_in_two_threads_do_not_meet() {
    let session = |byte: u8| {
        move || {
            let mut controller = fresh();
            for _ in 0..20 {
                send(&mut controller, &write_data(FIRST));
                send(&mut controller, &[byte; 512]);
                send(&mut controller, &read_data(FIRST, 1));
                assert_eq!(read(&mut controller, 512), [byte; 512]);
                assert_eq!(read(&mut controller, 1), [0x40]);
            }
        }
    };
    let threads = [1, 2].map(|byte| std::thread::spawn(session(byte)));
    for thread in threads {
        thread.join().expect("a session that went well");
    }
}
