//! The first twelve bytes: what they must be, and when they are judged.

use super::List;
use crate::dsk::{Plan, changed};

const EXTENDED: &[u8; 12] = b"EXTENDED CPC";
const NORMAL: &[u8; 12] = b"MV - CPCEMU ";

/// Adds the images whose signature is short, wrong or unusual.
pub fn add(list: &mut List) {
    add_short(list);
    add_wrong(list);
    add_other_tails(list);
}

fn add_short(list: &mut List) {
    list.add("signature-of-no-bytes", Vec::new());
    list.add("signature-of-1-byte", b"E".to_vec());
    list.add("signature-of-8-bytes", b"MV - CPC".to_vec());
    list.add("signature-of-11-bytes", b"EXTENDED CP".to_vec());
    list.add("signature-of-11-zeros-is-short-not-wrong", vec![0; 11]);
    list.add("signature-of-12-zeros", vec![0; 12]);
    list.add("signature-extended-alone", EXTENDED.to_vec());
    list.add("signature-normal-alone", NORMAL.to_vec());
}

fn add_wrong(list: &mut List) {
    for (letter, byte) in EXTENDED.iter().enumerate() {
        let name = format!("signature-extended-letter-{letter:02}-wrong");
        list.add(name, changed(EXTENDED, letter, byte + 1));
    }
    for (letter, byte) in NORMAL[..8].iter().enumerate() {
        let name = format!("signature-normal-letter-{letter:02}-wrong");
        list.add(name, changed(NORMAL, letter, byte + 1));
    }
    let high = |text: &[u8; 12]| text.iter().map(|byte| byte | 0x80).collect();
    list.add(
        "signature-extended-in-small-letters",
        EXTENDED.to_ascii_lowercase(),
    );
    list.add(
        "signature-normal-in-small-letters",
        NORMAL.to_ascii_lowercase(),
    );
    list.add("signature-extended-with-high-bits", high(EXTENDED));
    list.add("signature-normal-with-high-bits", high(NORMAL));
    list.add("signature-one-byte-late", b"\0EXTENDED CPC".to_vec());
}

/// Of a normal image the first eight bytes count, of an extended one twelve.
fn add_other_tails(list: &mut List) {
    let normal = Plan::normal(0, 0, 0).image();
    let extended = Plan::extended(0, 0, &[]).image();
    for letter in 8..12 {
        let name = format!("signature-normal-letter-{letter:02}-free");
        list.add(name, changed(&normal, letter, normal[letter] + 1));
    }
    for byte in [0x00, 0x0a, 0x80, 0xff] {
        let name = format!("signature-normal-then-bytes-{byte:03}");
        list.add(name, filled(&normal, 8, byte));
        let name = format!("signature-extended-then-bytes-{byte:03}");
        list.add(name, filled(&extended, 12, byte));
    }
}

/// The image with one byte from `start` to the numbers of tracks and sides.
fn filled(image: &[u8], start: usize, byte: u8) -> Vec<u8> {
    let mut image = image.to_vec();
    image[start..0x30].fill(byte);
    image
}
