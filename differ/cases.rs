//! The cases of a run. The seed of a case is all that it is made from: its lowest
//! byte tells the kind, below 128 loads, else sessions.

use crate::chance::Chance;
use crate::watch::{Checked, Watch, tell, told};
use crate::{formats, homes, host, loads, served, sessions, sizes};

/// How many kinds there are of loads, and of sessions.
const KINDS: u64 = 128;

/// What a run is to do.
pub struct Plan {
    seed: u64,
    images: u64,
    calls: u64,
}

/// A number in decimal, or in hex behind `0x`.
pub fn number(word: &str) -> Option<u64> {
    match word.strip_prefix("0x") {
        Some(hex) => u64::from_str_radix(hex, 16).ok(),
        None => word.parse().ok(),
    }
}

impl Plan {
    /// The plan of these options, if they are good.
    pub fn read(options: &[&str]) -> Option<Plan> {
        let mut plan = Plan {
            seed: 1,
            images: 10_000,
            calls: 1_000_000,
        };
        for pair in options.chunks(2) {
            match pair {
                ["--seed", word] => plan.seed = number(word)?,
                ["--images", word] => plan.images = number(word)?,
                ["--calls", word] => plan.calls = number(word)?,
                _ => return None,
            }
        }
        Some(plan)
    }

    /// Runs every n, the disks with equal IDs, the data-sheet machine by hand, the disks
    /// at the edges, and cases until there are as many images and calls as planned, or to
    /// the first difference. Answers whether there was none.
    pub fn run(&self) -> bool {
        let Plan {
            seed,
            images,
            calls,
        } = self;
        tell(format_args!(
            "seed {seed}, at least {images} images and {calls} calls in sessions"
        ));
        let mut watch = Watch::default();
        if !lengths_are_right() {
            return false;
        }
        let mut chance = Chance::new(*seed);
        let good = sizes::run(&mut watch)
            && served::run(&mut watch)
            && formats::run(&mut watch)
            && homes::run(&mut watch)
            && self.run_loads(&mut chance, &mut watch)
            && self.run_sessions(&mut chance, &mut watch);
        tell_end(good, &watch);
        good
    }

    fn run_loads(&self, chance: &mut Chance, watch: &mut Watch) -> bool {
        let mut kinds = (0..KINDS).cycle();
        while watch.number("images") < self.images {
            if !run_case(seed(chance, kinds.next()), watch) {
                return false;
            }
        }
        true
    }

    fn run_sessions(&self, chance: &mut Chance, watch: &mut Watch) -> bool {
        let mut kinds = (KINDS..2 * KINDS).cycle();
        let end = watch.calls() + self.calls;
        while watch.calls() < end {
            if !run_case(seed(chance, kinds.next()), watch) {
                return false;
            }
        }
        true
    }
}

/// Any seed of a case of this kind.
fn seed(chance: &mut Chance, kind: Option<u64>) -> u64 {
    chance.next() & !0xff | kind.unwrap_or(0)
}

/// Runs the case of this seed, and tells each of its calls. Answers whether there
/// was no difference.
pub fn replay(seed: u64) -> bool {
    let mut watch = Watch::aloud();
    let good = lengths_are_right() && run_case(seed, &mut watch);
    tell_end(good, &watch);
    good
}

/// Tells the counts, and how it ended.
pub fn tell_end(good: bool, watch: &Watch) {
    tell(watch);
    tell(if good {
        "no difference"
    } else {
        "a difference"
    });
}

/// Runs one case, and tells of a difference.
fn run_case(seed: u64, watch: &mut Watch) -> bool {
    let done = checked(seed, watch);
    told(
        format_args!("case      {seed:#x} (differ replay {seed:#x})"),
        done,
    )
}

fn checked(seed: u64, watch: &mut Watch) -> Checked {
    let kind = (seed % KINDS) as u8;
    if seed & 0xff < KINDS {
        loads::run(seed, kind, watch)
    } else {
        sessions::run(seed, kind, watch)
    }
}

/// Whether the library tells the lengths that are written down.
fn lengths_are_right() -> bool {
    let written = [host::CONTROLLER, host::TABLE, host::SHEET].map(|length| length as u64);
    let (controller, table) = host::lengths();
    let told = [controller, table, host::sheet_length()];
    if told != written {
        tell(format_args!(
            "lengths of controller, table and longest sheet: expected {written:?}, library {told:?}"
        ));
    }
    told == written
}
