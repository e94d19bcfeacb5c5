//! What is timed at the ports, on a fresh disk of 40 tracks of nine sectors.

use std::hint::black_box;
use std::time::{Duration, Instant};

use super::ports::Port;

/// How many status reads, and how many commands, are timed as one.
const POLLS: usize = 10_000;
const COMMANDS: usize = 5_000;

/// How many bytes of a write are held before its last one.
const HELD: usize = 511;

/// A piece of work.
#[derive(Clone, Copy)]
pub enum Work {
    ReadPolled,
    ReadPlain,
    PollIdle,
    PollData,
    ReadBytes,
    SendHeld,
    SaveAll,
    FormatPresent,
    FormatAbsent,
    ReadIds,
    SenseDrive,
}

impl Work {
    /// How many operations it has, by which its time is divided.
    pub fn operations(self) -> usize {
        match self {
            Work::ReadPolled | Work::ReadPlain | Work::SaveAll => 360,
            Work::PollIdle | Work::PollData => POLLS,
            Work::ReadBytes => 9 * 512,
            Work::SendHeld => HELD,
            Work::FormatPresent | Work::FormatAbsent => 40,
            Work::ReadIds | Work::SenseDrive => COMMANDS,
        }
    }

    /// Does it, and answers how long the timed part took, and a sum of what was
    /// read, which is the same on both sides.
    pub fn run<P: Port>(self, port: &mut P) -> (Duration, u64) {
        match self {
            Work::PollData | Work::ReadBytes => send(port, &[0x46, 0, 0, 0, 1, 2, 9, 0x2a, 0xff]),
            Work::SendHeld => send(port, &[0x45, 0, 0, 0, 1, 2, 1, 0x2a, 0xff]),
            _ => {}
        }
        let start = Instant::now();
        let seen = self.timed(port);
        (start.elapsed(), black_box(seen))
    }

    fn timed<P: Port>(self, port: &mut P) -> u64 {
        match self {
            Work::ReadPolled => each_sector(port, |port, c, r| read_sector(port, c, r, true)),
            Work::ReadPlain => each_sector(port, |port, c, r| read_sector(port, c, r, false)),
            Work::PollIdle | Work::PollData => (0..POLLS).map(|_| u64::from(port.status())).sum(),
            Work::ReadBytes => take(port, 9 * 512),
            Work::SendHeld => {
                send(port, &[0x5a; HELD]);
                u64::from(port.status())
            }
            Work::SaveAll => each_sector(port, save_sector),
            Work::FormatPresent => each_track(port, |port, _| format(port, 0)),
            Work::FormatAbsent => each_track(port, |port, _| format(port, 4)),
            Work::ReadIds => repeated(port, &[0x4a, 0], 7),
            Work::SenseDrive => repeated(port, &[0x04, 0], 1),
        }
    }
}

fn send<P: Port>(port: &mut P, bytes: &[u8]) {
    bytes.iter().for_each(|&b| port.send(b));
}

fn take<P: Port>(port: &mut P, bytes: usize) -> u64 {
    (0..bytes).map(|_| u64::from(port.read())).sum()
}

/// A command, so many times, with the bytes of its reply.
fn repeated<P: Port>(port: &mut P, command: &[u8], reply: usize) -> u64 {
    (0..COMMANDS)
        .map(|_| {
            send(port, command);
            take(port, reply)
        })
        .sum()
}

/// Goes to each cylinder with Seek and Sense Interrupt.
fn each_track<P: Port>(port: &mut P, work: impl Fn(&mut P, u8) -> u64) -> u64 {
    (0..40)
        .map(|cylinder| {
            send(port, &[0x0f, 0, cylinder, 0x08]);
            take(port, 2) + work(port, cylinder)
        })
        .sum()
}

fn each_sector<P: Port>(port: &mut P, work: impl Fn(&mut P, u8, u8) -> u64) -> u64 {
    each_track(port, |port, cylinder| {
        (1..=9).map(|r| work(port, cylinder, r)).sum()
    })
}

/// Read Data of one sector, its bytes and its reply.
fn read_sector<P: Port>(port: &mut P, c: u8, r: u8, polled: bool) -> u64 {
    send(port, &[0x46, 0, c, 0, r, 2, r, 0x2a, 0xff]);
    if !polled {
        return take(port, 512 + 7);
    }
    let one = |_| u64::from(port.status()) + u64::from(port.read());
    (0..512 + 7).map(one).sum()
}

/// Write Data of one sector, with bytes that follow from their place.
fn save_sector<P: Port>(port: &mut P, c: u8, r: u8) -> u64 {
    send(port, &[0x45, 0, c, 0, r, 2, r, 0x2a, 0xff]);
    (0..512u16).for_each(|place| port.send(place as u8 ^ r));
    take(port, 7)
}

/// Format of the track under a head as it was, nine sectors of 512 bytes.
fn format<P: Port>(port: &mut P, head: u8) -> u64 {
    send(port, &[0x4d, head, 2, 9, 0x2a, 0xe5]);
    take(port, 7)
}
