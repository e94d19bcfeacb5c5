//! The oracle: the floppy emulator's own Rust, unchanged, asked for its answers.
//! `oracle images` writes a list of disk images as a stream, `oracle answers`
//! reads such a stream and prints what the Rust answers. `oracle scripts` writes
//! a list of scripts that change and read disks, `oracle outcomes` reads such a
//! stream and prints what the Rust does. `oracle sessions` writes a list of
//! sessions at the controller's ports, `oracle shown` reads such a stream and
//! prints what the Rust's controller answers. `oracle files FOLDER` writes each of
//! the images as a file, `oracle list` reads one image and prints the listing of
//! the disk that the Rust loads from it.

mod answers;
mod capacities;
mod datasheet;
mod dsk;
mod dump;
mod errors;
mod found;
mod home;
mod home_edges;
mod images;
mod listing;
mod load;
mod noise;
mod outcomes;
mod script;
mod scripts;
mod session;
mod sessions;
mod sheet;
mod shown;
mod stream;

use std::ffi::OsString;
use std::io::{self, BufWriter, Read, Write};
use std::path::Path;
use std::process::ExitCode;
use std::{fmt, fs};

/// Why the oracle stops before its end.
pub enum Failure {
    /// It was not called as it should be.
    Usage,
    /// The stream on standard input is broken.
    Stream(String),
    /// The Rust raised an error that has no refusal number.
    Finding(String),
    /// Standard input or output failed.
    Io(io::Error),
}

impl Failure {
    fn status(&self) -> ExitCode {
        match self {
            Failure::Usage | Failure::Stream(_) => ExitCode::from(2),
            Failure::Finding(_) | Failure::Io(_) => ExitCode::FAILURE,
        }
    }
}

impl fmt::Display for Failure {
    fn fmt(&self, f: &mut fmt::Formatter<'_>) -> fmt::Result {
        match self {
            Failure::Usage => {
                write!(
                    f,
                    "usage: oracle images | answers | scripts | outcomes | sessions | shown | files FOLDER | list"
                )
            }
            Failure::Stream(fault) => write!(f, "the stream is broken: {fault}"),
            Failure::Finding(error) => write!(f, "an error without a number: {error}"),
            Failure::Io(error) => write!(f, "{error}"),
        }
    }
}

impl From<io::Error> for Failure {
    fn from(error: io::Error) -> Failure {
        Failure::Io(error)
    }
}

fn main() -> ExitCode {
    let arguments: Vec<OsString> = std::env::args_os().skip(1).collect();
    let done = match arguments.as_slice() {
        [word] if word == "images" => print_images(),
        [word] if word == "answers" => print_answers(),
        [word] if word == "scripts" => print_scripts(),
        [word] if word == "outcomes" => print_outcomes(),
        [word] if word == "sessions" => print_sessions(),
        [word] if word == "shown" => print_shown(),
        [word, folder] if word == "files" => write_files(folder.as_ref()),
        [word] if word == "list" => print_listing(),
        _ => Err(Failure::Usage),
    };
    match done {
        Ok(()) => ExitCode::SUCCESS,
        Err(failure) => {
            eprintln!("oracle: {failure}");
            failure.status()
        }
    }
}

fn print_images() -> Result<(), Failure> {
    let mut out = BufWriter::new(io::stdout().lock());
    for record in images::list() {
        stream::write(&record, &mut out)?;
    }
    Ok(out.flush()?)
}

fn print_answers() -> Result<(), Failure> {
    let bytes = read_stream()?;
    let mut out = BufWriter::new(io::stdout().lock());
    answers::print_fresh(&mut out)?;
    for record in stream::read(&bytes).map_err(Failure::Stream)? {
        answers::print(&record, &mut out)?;
    }
    Ok(out.flush()?)
}

fn print_scripts() -> Result<(), Failure> {
    let mut out = BufWriter::new(io::stdout().lock());
    for script in scripts::list() {
        script::write(&script, &mut out)?;
    }
    Ok(out.flush()?)
}

fn print_outcomes() -> Result<(), Failure> {
    let bytes = read_stream()?;
    let mut out = BufWriter::new(io::stdout().lock());
    for script in script::read(&bytes).map_err(Failure::Stream)? {
        outcomes::print(&script, &mut out)?;
    }
    Ok(out.flush()?)
}

fn print_sessions() -> Result<(), Failure> {
    let mut out = BufWriter::new(io::stdout().lock());
    for session in sessions::list() {
        session::write(&session, &mut out)?;
    }
    Ok(out.flush()?)
}

/// Answers the sessions before the first that the Rust cannot answer.
fn print_shown() -> Result<(), Failure> {
    let bytes = read_stream()?;
    let mut out = BufWriter::new(io::stdout().lock());
    let sessions = session::read(&bytes).map_err(Failure::Stream)?;
    for session in sessions.iter().take_while(|session| !session.is_refusal()) {
        shown::print(session, &mut out)?;
    }
    Ok(out.flush()?)
}

/// Writes each image of the list as `NAME.dsk` into the folder.
fn write_files(folder: &Path) -> Result<(), Failure> {
    for record in images::list() {
        fs::write(
            folder.join(record.name()).with_extension("dsk"),
            record.image(),
        )?;
    }
    Ok(())
}

fn print_listing() -> Result<(), Failure> {
    let image = read_stream()?;
    let mut out = BufWriter::new(io::stdout().lock());
    listing::print(&image, &mut out)?;
    Ok(out.flush()?)
}

fn read_stream() -> io::Result<Vec<u8>> {
    let mut bytes = Vec::new();
    io::stdin().read_to_end(&mut bytes)?;
    Ok(bytes)
}
