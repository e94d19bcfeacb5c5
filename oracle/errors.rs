//! The errors that the Rust raises on an image, as document 01 numbers them.

use std::io::{self, ErrorKind};

/// The refusal number of an error that the Rust raises, if it has one.
pub fn refusal(error: &anyhow::Error) -> Option<u8> {
    if let Some(error) = error.downcast_ref::<io::Error>() {
        return (error.kind() == ErrorKind::UnexpectedEof).then_some(3);
    }
    match error.to_string().as_str() {
        "Invalid EXTENDED CPC" => Some(4),
        "Invalid Track-Info signature" => Some(5),
        _ => None,
    }
}
