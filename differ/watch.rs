//! What the driver says and counts, and how it tells of a difference.

use std::collections::BTreeMap;
use std::fmt;
use std::io::{self, Write};

use crate::found::Match;

/// Where the two sides do not agree.
pub struct Difference {
    /// What was called, or looked at.
    pub call: String,
    /// What the Rust answers, or what document 01 does where the Rust has nothing.
    pub expected: String,
    /// What the library answers.
    pub ours: String,
}

impl Difference {
    /// The difference of what was expected and what came.
    pub fn new(
        call: impl fmt::Display,
        expected: impl fmt::Display,
        ours: impl fmt::Display,
    ) -> Difference {
        Difference {
            call: call.to_string(),
            expected: expected.to_string(),
            ours: ours.to_string(),
        }
    }

    /// The same with the states of both sides.
    pub fn with(mut self, states: String) -> Difference {
        self.ours += "\n";
        self.ours += &states;
        self
    }
}

impl fmt::Display for Difference {
    fn fmt(&self, f: &mut fmt::Formatter<'_>) -> fmt::Result {
        writeln!(f, "call      {}", self.call)?;
        writeln!(f, "expected  {}", self.expected)?;
        write!(f, "library   {}", self.ours)
    }
}

/// Prints a line. A reader that has seen enough is no fault.
pub fn tell(words: impl fmt::Display) {
    let _ = writeln!(io::stdout(), "{words}");
}

/// How a step of a case ends.
pub type Checked<T = ()> = Result<T, Difference>;

/// Tells of a difference, with where it was. Answers whether there was none.
pub fn told(place: impl fmt::Display, done: Checked) -> bool {
    if let Err(difference) = &done {
        tell(format_args!("{place}\n{difference}"));
    }
    done.is_ok()
}

/// The counts of a run, and whether each call is told.
#[derive(Default)]
pub struct Watch {
    aloud: bool,
    /// By name: cases, calls, refusals.
    counts: BTreeMap<&'static str, u64>,
    refusals: BTreeMap<(&'static str, u8), u64>,
    calls: u64,
    bytes: u64,
}

impl Watch {
    /// Nothing counted yet, and each call is told.
    pub fn aloud() -> Watch {
        Watch {
            aloud: true,
            ..Watch::default()
        }
    }

    /// Tells it, where each call is told.
    pub fn say(&self, words: impl fmt::Display) {
        if self.aloud {
            tell(words);
        }
    }

    /// One more call of this name.
    pub fn call(&mut self, name: &'static str) {
        self.calls += 1;
        self.count(name);
    }

    /// One more of this name.
    pub fn count(&mut self, name: &'static str) {
        *self.counts.entry(name).or_default() += 1;
    }

    /// One more sector found, if one was, and one more that is not the only one with its
    /// ID, under these names.
    pub fn found(&mut self, [all, equal]: [&'static str; 2], found: Option<Match>) {
        if let Some(Match { count, .. }) = found {
            self.count(all);
            if count > 1 {
                self.count(equal);
            }
        }
    }

    /// One more refusal with this number, or none where it is 0.
    pub fn refusal(&mut self, of: &'static str, number: u8) {
        if number != 0 {
            *self.refusals.entry((of, number)).or_default() += 1;
        }
    }

    /// So many bytes were compared.
    pub fn compared(&mut self, bytes: usize) {
        self.bytes += bytes as u64;
    }

    /// How many calls there were.
    pub fn calls(&self) -> u64 {
        self.calls
    }

    /// How many of this name there were.
    pub fn number(&self, name: &'static str) -> u64 {
        self.counts.get(name).copied().unwrap_or(0)
    }
}

/// The counts as they are printed at the end.
impl fmt::Display for Watch {
    fn fmt(&self, f: &mut fmt::Formatter<'_>) -> fmt::Result {
        for (name, number) in &self.counts {
            writeln!(f, "{name}: {number}")?;
        }
        for ((of, refusal), number) in &self.refusals {
            writeln!(f, "{of} refused {refusal}: {number}")?;
        }
        writeln!(f, "calls in all: {}", self.calls)?;
        write!(f, "bytes compared: {}", self.bytes)
    }
}
