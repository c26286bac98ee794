//! A sample of calls with what they were held to, for the program that replays it (crates/vectors).
//!
//! A line for each call: the function's name, its input and the answer, as hexadecimal bytes, high bytes first. The input is the function's number,
//! the length of the room, and the arguments at their width. The answer is the code, four bytes, and the twelve bytes of the room afterwards.

use std::fmt::Write;
use std::fs;
use std::path::PathBuf;

use crate::ours::{Call, ROOM};

const NAMES: [&str; 9] = [
    "spin_lock_compute_owner",
    "spin_lock_decode_owner",
    "spin_lock_valid",
    "spin_unlock_valid",
    "cpu_mask_mod",
    "validate_pin_mask",
    "cpu_pin_compute",
    "compute_ipi_mask",
    "validate_ipi_mask",
];

/// Of each function every so many-th call of a part is kept, at the start and later on, up to the most.
const OFTEN: u64 = 7;
const SELDOM: u64 = 10_007;
const EARLY: u64 = 24 * OFTEN;
const MOST: usize = 60;

pub struct Sample {
    path: PathBuf,
    seen: [u64; NAMES.len()],
    kept: [usize; NAMES.len()],
    text: String,
}

/// A function's number, and its arguments as bytes.
fn input(call: &Call) -> (u8, Vec<u8>) {
    let words = |words: &[u32]| words.iter().flat_map(|word| word.to_be_bytes()).collect::<Vec<_>>();
    match *call {
        Call::ComputeOwner { cpu, thread, wide } => (0, [&cpu.to_be_bytes()[..], &thread.to_be_bytes(), &wide.to_be_bytes()].concat()),
        Call::DecodeOwner { word, wide } => (1, [&word.to_be_bytes()[..], &wide.to_be_bytes()].concat()),
        Call::LockValid { word, cpu, wide } => (2, [&cpu.to_be_bytes()[..], &word.to_be_bytes(), &wide.to_be_bytes()].concat()),
        Call::UnlockValid { word, cpu, thread, wide } => {
            (3, [&cpu.to_be_bytes()[..], &word.to_be_bytes(), &thread.to_be_bytes(), &wide.to_be_bytes()].concat())
        }
        Call::MaskMod { mask, enable, disable, running, pin_only } => (4, words(&[mask, enable, disable, running, pin_only])),
        Call::PinTest { mask } => (5, words(&[mask])),
        Call::Pin { cpu, max_cpus } => (6, words(&[cpu, max_cpus])),
        Call::Ipi { current, prio, mask, cpus, num_cpus, max_cpus } => {
            (7, [&words(&[current, prio as u32, mask, num_cpus, max_cpus]), cpus].concat())
        }
        Call::IpiTest { mask, current, max_cpus } => (8, words(&[mask, current, max_cpus])),
    }
}

fn hex(text: &mut String, bytes: &[u8]) {
    for byte in bytes {
        write!(text, "{byte:02X}").expect("a string takes all");
    }
}

impl Sample {
    pub fn new(path: PathBuf) -> Sample {
        Sample { path, seen: [0; NAMES.len()], kept: [0; NAMES.len()], text: String::new() }
    }

    /// Counts from zero again, for the next part.
    pub fn begin(&mut self) {
        self.seen.fill(0);
        self.kept.fill(0);
    }

    pub fn add(&mut self, call: &Call, len: usize, code: i32, room: &[u8; ROOM]) {
        let (function, arguments) = input(call);
        let at = usize::from(function);
        self.seen[at] += 1;
        let every = if self.seen[at] <= EARLY { OFTEN } else { SELDOM };
        if self.seen[at] % every != 0 || self.kept[at] == MOST {
            return;
        }
        self.kept[at] += 1;
        self.text += NAMES[at];
        self.text += " ";
        hex(&mut self.text, &[function, len as u8]);
        hex(&mut self.text, &arguments);
        self.text += " ";
        hex(&mut self.text, &code.to_be_bytes());
        hex(&mut self.text, room);
        self.text += "\n";
    }

    pub fn write(self) {
        fs::write(&self.path, &self.text).unwrap_or_else(|e| panic!("{}: {e}", self.path.display()));
        println!("{}: {} calls", self.path.display(), self.text.lines().count());
    }
}
