//! The differential driver: the floppy emulator's own Rust, unchanged, against the
//! exported calls of the static library, in one process.

#[allow(dead_code)]
#[path = "../oracle/capacities.rs"]
mod capacities;
#[path = "../oracle/datasheet.rs"]
mod datasheet;
#[allow(dead_code)]
#[path = "../oracle/dsk.rs"]
mod dsk;
#[allow(dead_code)]
#[path = "../oracle/dump.rs"]
mod dump;
#[path = "../oracle/errors.rs"]
mod errors;
#[path = "../oracle/found.rs"]
mod found;
#[path = "../oracle/home.rs"]
mod home;
#[path = "../oracle/home_edges.rs"]
mod home_edges;
#[allow(dead_code)]
#[path = "../oracle/noise.rs"]
mod noise;
#[allow(dead_code)]
#[path = "../oracle/session.rs"]
mod session;
#[path = "../oracle/sheet.rs"]
mod sheet;
#[allow(dead_code)]
#[path = "../oracle/stream.rs"]
mod stream;

mod bench;
mod buffer;
mod by_hand;
mod cases;
mod chance;
mod faults;
mod formats;
mod homes;
mod host;
mod kept;
mod layout;
mod loads;
mod lookups;
mod made;
mod pair;
mod rules;
mod served;
mod sessions;
mod sheets;
mod sizes;
mod store;
mod view;
mod watch;

use std::process::ExitCode;

const USAGE: &str = "\
usage: differ run [--seed S] [--images N] [--calls N]
       differ replay SEED
       differ kept FOLDER [NAME]
       differ bench";

fn main() -> ExitCode {
    let words: Vec<String> = std::env::args().skip(1).collect();
    let words: Vec<&str> = words.iter().map(String::as_str).collect();
    let done = match words.as_slice() {
        ["run", options @ ..] => cases::Plan::read(options).map(|plan| plan.run()),
        ["bench"] => {
            bench::run();
            Some(true)
        }
        ["kept", folder] => kept::run(folder, None),
        ["kept", folder, name] => kept::run(folder, Some(name)),
        ["replay", seed] => cases::number(seed).map(cases::replay),
        _ => None,
    };
    match done {
        Some(true) => ExitCode::SUCCESS,
        Some(false) => ExitCode::FAILURE,
        None => {
            eprintln!("{USAGE}");
            ExitCode::from(2)
        }
    }
}
