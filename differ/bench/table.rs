//! The times, as a table in Markdown.

use std::fs;
use std::process::Command;
use std::time::Duration;

/// What was timed, and the nanoseconds of each side for one operation.
pub struct Row {
    name: &'static str,
    rust: Vec<f64>,
    ours: Vec<f64>,
}

impl Row {
    /// Nothing timed yet.
    pub fn new(name: &'static str) -> Row {
        Row {
            name,
            rust: Vec::new(),
            ours: Vec::new(),
        }
    }

    /// One repetition of both sides, of so many operations.
    pub fn add(&mut self, rust: Duration, ours: Duration, operations: usize) {
        let each = |time: Duration| time.as_nanos() as f64 / operations as f64;
        self.rust.push(each(rust));
        self.ours.push(each(ours));
    }

    fn print(&self) {
        let pairs = self.ours.iter().zip(&self.rust);
        let ratios = sorted(pairs.map(|(ours, rust)| ours / rust));
        let [rust, ours] = [&self.rust, &self.ours].map(|times| sorted(times.iter().copied()));
        println!(
            "| {} | {:.1} | {:.1} | {:.2} | {:.2} to {:.2} |",
            self.name,
            at(&rust, 50),
            at(&ours, 50),
            at(&ratios, 50),
            at(&ratios, 10),
            at(&ratios, 90),
        );
    }
}

fn sorted(times: impl Iterator<Item = f64>) -> Vec<f64> {
    let mut times: Vec<f64> = times.collect();
    times.sort_by(f64::total_cmp);
    times
}

/// The time that so many percent are below.
fn at(sorted: &[f64], percent: usize) -> f64 {
    sorted[(sorted.len() - 1) * percent / 100]
}

/// Prints the machine and the rows.
pub fn print(rows: &[Row], repetitions: usize) {
    println!("Machine: {}. Compiler: {}.", machine(), compiler());
    println!(
        "{repetitions} repetitions, both sides in turns; medians, and the ratios of 10 to 90 percent."
    );
    println!();
    println!("| one .. | Rust, ns | library, ns | library / Rust | spread |");
    println!("|---|---:|---:|---:|---:|");
    rows.iter().for_each(Row::print);
}

/// The model name of the processor.
fn machine() -> String {
    let text = fs::read_to_string("/proc/cpuinfo").unwrap_or_default();
    let line = text.lines().find(|line| line.starts_with("model name"));
    let name = line.and_then(|line| line.split_once(':'));
    name.map_or("unknown", |(_, name)| name.trim()).to_owned()
}

/// The version of the compiler, as it names itself.
fn compiler() -> String {
    let rustc = std::env::var("RUSTC").unwrap_or("rustc".to_owned());
    let output = Command::new(rustc).arg("--version").output();
    output.map_or("unknown".to_owned(), |output| {
        String::from_utf8_lossy(&output.stdout).trim().to_owned()
    })
}
