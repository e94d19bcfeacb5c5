//! The stream of named images. A record is one byte for the length of the name,
//! the name, four bytes (the lowest first) for the length of the image, and the
//! image; records follow one another.

use std::io::{self, Write};

/// No image of the stream is longer.
const LARGEST: usize = 262_144;

/// No image of a script or a session is longer.
pub const LARGEST_DISK: usize = 65_536;

/// A named image.
pub struct Record {
    name: String,
    image: Vec<u8>,
}

impl Record {
    /// The record of that name and image, or what is wrong with them.
    pub fn new(name: String, image: Vec<u8>) -> Result<Record, String> {
        if !is_name(&name) {
            return Err(format!("{name:?} is no name of lower-case words"));
        }
        if image.len() > LARGEST {
            return Err(format!("the image {name} is over {LARGEST} bytes"));
        }
        Ok(Record { name, image })
    }

    /// The name of the image.
    pub fn name(&self) -> &str {
        &self.name
    }

    /// The bytes of the image.
    pub fn image(&self) -> &[u8] {
        &self.image
    }
}

/// Words of small letters and digits, joined by `-`, at most 255 bytes in all.
fn is_name(name: &str) -> bool {
    let of_word = |byte: u8| byte.is_ascii_lowercase() || byte.is_ascii_digit();
    name.len() <= 255
        && name
            .split('-')
            .all(|word| !word.is_empty() && word.bytes().all(of_word))
}

/// Writes one record to the stream.
pub fn write(record: &Record, out: &mut impl Write) -> io::Result<()> {
    out.write_all(&[record.name.len() as u8])?;
    out.write_all(record.name.as_bytes())?;
    write_block(&record.image, out)
}

/// Writes bytes behind their length to the stream.
pub fn write_block(bytes: &[u8], out: &mut impl Write) -> io::Result<()> {
    out.write_all(&(bytes.len() as u32).to_le_bytes())?;
    out.write_all(bytes)
}

/// Reads every record of a stream, or says where and how it is broken.
pub fn read(stream: &[u8]) -> Result<Vec<Record>, String> {
    read_all(stream, read_record)
}

/// Reads a stream to its end with what reads one record, or says which record is
/// broken and how.
pub fn read_all<T>(
    mut stream: &[u8],
    read_one: impl Fn(&mut &[u8]) -> Result<T, String>,
) -> Result<Vec<T>, String> {
    let mut records = Vec::new();
    while !stream.is_empty() {
        let number = records.len() + 1;
        let record = read_one(&mut stream).map_err(|fault| format!("record {number}: {fault}"));
        records.push(record?);
    }
    Ok(records)
}

/// Reads one record of a stream and leaves what follows it.
pub fn read_record(stream: &mut &[u8]) -> Result<Record, String> {
    let [length] = take_array(stream, "length of the name")?;
    let name = take(stream, length.into(), "name")?;
    let image = take_block(stream, "image")?;
    Record::new(String::from_utf8_lossy(name).into_owned(), image.to_vec())
}

/// Takes the bytes that stand next behind their length, or says that the stream
/// ends inside `what`.
pub fn take_block<'a>(stream: &mut &'a [u8], what: &str) -> Result<&'a [u8], String> {
    let length = u32::from_le_bytes(take_array(stream, what)?);
    take(stream, length as usize, what)
}

/// Takes the next bytes of a stream, or says that it ends inside `what`.
pub fn take<'a>(stream: &mut &'a [u8], length: usize, what: &str) -> Result<&'a [u8], String> {
    stream
        .split_off(..length)
        .ok_or_else(|| format!("the stream ends inside the {what}"))
}

/// Takes the next `N` bytes of a stream, or says that it ends inside `what`.
pub fn take_array<const N: usize>(stream: &mut &[u8], what: &str) -> Result<[u8; N], String> {
    let mut array = [0; N];
    array.copy_from_slice(take(stream, N, what)?);
    Ok(array)
}
