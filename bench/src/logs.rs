//! Logs for the benchmark, from a generator with a fixed seed.

use std::iter;

use crate::baseline::{Machine, OK, RECORD_BYTES};
use crate::random::Random;

pub const RECORDS: usize = 2_048;

/// What logs are made for: a machine of so many CPUs, by its setup byte, and how many of its threads the records name.
pub struct Controller<const CPUS: usize> {
    setup: u8,
    threads: u64,
}

/// Four CPUs, and sixteen with wide tags; pin-only in one log alone. Fewer threads than a machine has, so that records meet each other's.
pub const NARROW: Controller<4> = Controller { setup: 0x40, threads: 8 };
pub const WIDE: Controller<16> = Controller { setup: 0x04, threads: 24 };

/// The setup byte's bit for pin-only.
const PIN_ONLY: u8 = 8;

/// Records, with the setup byte of their machine.
#[derive(Clone)]
pub struct Log {
    pub setup: u8,
    pub bytes: Vec<u8>,
}

/// The kinds of records. Each stands at its operation's number, but for a nested acquire, which is an acquire with A = 1.
pub const KINDS: [&str; 13] = ["up", "down", "put", "take", "acquire", "nested", "release", "mask", "pin", "priority", "ipi", "owner", "unwind"];

const ACQUIRE: usize = 4;
const NESTED: usize = 5;
const MASK: usize = 7;
/// Where A's last byte stands in a record.
const A_END: usize = 7;

/// How often each kind is drawn, so that each is accepted often. Unwind is drawn seldom: few jobs are stopped.
const SHARES: [u64; 13] = [6, 4, 40, 60, 3, 3, 30, 1, 1, 1, 1, 1, 1];

/// Fewer locks than a machine has, too.
const LOCKS: u64 = 16;
/// More important than a fresh thread, whose priority is 0.
const IMPORTANT: i32 = -1;
/// How many records are drawn to find one that is accepted. Some stay refused, as on a controller.
const DRAWS: usize = 24;

/// The next kind, by the shares.
fn drawn(random: &mut Random) -> usize {
    let mut left = random.below(SHARES.iter().sum());
    SHARES
        .iter()
        .position(|&share| {
            if left < share {
                true
            } else {
                left -= share;
                false
            }
        })
        .expect("the shares add up")
}

/// The kind of a record.
pub fn kind_of(record: &[u8]) -> usize {
    let number = usize::from(record[0] >> 4);
    if number == ACQUIRE && record[A_END] == 1 { NESTED } else { number }
}

/// A record of a kind with these fields.
fn packed(kind: usize, [cpu, thread, lock]: [u8; 3], [a, b]: [u32; 2]) -> [u8; RECORD_BYTES] {
    let mut bytes = [0; RECORD_BYTES];
    let number = if kind == NESTED { ACQUIRE } else { kind };
    bytes[..4].copy_from_slice(&[(number as u8) << 4 | cpu, thread, lock, 0]);
    bytes[4..8].copy_from_slice(&a.to_be_bytes());
    bytes[8..].copy_from_slice(&b.to_be_bytes());
    bytes
}

/// A record by its kind's name, on a CPU and a thread.
fn named(name: &str, cpu: u64, thread: u64, a: u32) -> [u8; RECORD_BYTES] {
    let kind = KINDS.iter().position(|of| *of == name).expect("a kind");
    packed(kind, [cpu as u8, thread as u8, 0], [a, 0])
}

impl<const CPUS: usize> Controller<CPUS> {
    /// A record of a kind, with its used fields in range.
    fn record(&self, kind: usize, random: &mut Random) -> [u8; RECORD_BYTES] {
        let (cpu, thread, lock) = (random.below(CPUS as u64) as u8, random.below(self.threads) as u8, random.below(LOCKS) as u8);
        let (cpu, thread, lock) = match KINDS[kind] {
            "up" | "down" => (cpu, 0, 0),
            "put" | "take" | "pin" | "ipi" | "unwind" => (cpu, thread, 0),
            "acquire" | "nested" | "release" => (cpu, 0, lock),
            "mask" | "priority" => (0, thread, 0),
            _ => (0, 0, lock),
        };
        let (a, b) = match KINDS[kind] {
            // Enables every CPU, so that a thread that was pinned can be put elsewhere again.
            "mask" => ((1 << CPUS) - 1, (random.below(1 << (32 - CPUS)) as u32) << CPUS),
            "nested" => (1, 0),
            "priority" => ((random.below(256) as i32 - 128) as u32, 0),
            _ => (0, 0),
        };
        packed(kind, [cpu, thread, lock], [a, b])
    }

    /// A log of the longest size from a fresh machine. `kind` draws the next record's.
    fn log_of(&self, random: &mut Random, mut kind: impl FnMut(&mut Random) -> usize) -> Log {
        let mut machine = Machine::<CPUS>::fresh(self.setup).expect("the setup byte is good");
        let mut bytes = Vec::with_capacity(RECORDS * RECORD_BYTES);
        for _ in 0..RECORDS {
            let mut next = self.record(kind(random), random);
            for _ in 1..DRAWS {
                if machine.clone().step(&next).0 == OK {
                    break;
                }
                next = self.record(kind(random), random);
            }
            machine.step(&next);
            bytes.extend(next);
        }
        Log { setup: self.setup, bytes }
    }

    /// Every kind in turn, at random.
    pub fn mixed(&self, random: &mut Random) -> Log {
        self.log_of(random, drawn)
    }

    /// One kind only.
    pub fn only(&self, kind: usize, random: &mut Random) -> Log {
        self.log_of(random, |_| kind)
    }

    /// A log of the longest size: these records, and then others.
    fn filled(&self, begins: Vec<[u8; RECORD_BYTES]>, others: impl Iterator<Item = [u8; RECORD_BYTES]>) -> Log {
        Log { setup: self.setup, bytes: begins.into_iter().chain(others).take(RECORDS).flatten().collect() }
    }

    /// CPU 0 comes up, thread 0 is put on it, and every other record unwinds the two: accepted, over all locks, with none to free.
    pub fn unwind_running(&self) -> Log {
        let begins = vec![named("up", 0, 0, 0), named("put", 0, 0, 0)];
        self.filled(begins, iter::repeat(named("unwind", 0, 0, 0)))
    }

    /// Every CPU comes up and runs a fresh thread, and each lock is taken by a CPU. Every other record is a plain acquire of one of these locks:
    /// refused, to the CPU that holds it and to the others.
    pub fn held(&self, random: &mut Random) -> Log {
        let cpus = CPUS as u64;
        let mut records = Vec::new();
        for cpu in 0..cpus {
            records.extend([named("up", cpu, 0, 0), named("put", cpu, cpu, 0)]);
        }
        for lock in 0..LOCKS {
            records.push(packed(ACQUIRE, [(lock % cpus) as u8, 0, lock as u8], [0, 0]));
        }
        self.filled(records, iter::repeat_with(|| packed(ACQUIRE, [random.below(cpus) as u8, 0, random.below(LOCKS) as u8], [0, 0])))
    }

    /// Every CPU comes up and runs a fresh thread. The other threads are more important; each may run on every CPU or, pinned, on one. Every other
    /// record asks which CPUs to interrupt for one of these.
    pub fn interrupts(&self, pinned: bool, random: &mut Random) -> Log {
        let cpus = CPUS as u64;
        let mut records = Vec::new();
        for cpu in 0..cpus {
            records.extend([named("up", cpu, 0, 0), named("put", cpu, cpu, 0)]);
        }
        for thread in cpus..self.threads {
            records.push(named("priority", 0, thread, IMPORTANT as u32));
            if pinned {
                records.push(named("pin", random.below(cpus), thread, 0));
            }
        }
        self.filled(records, iter::repeat_with(|| named("ipi", random.below(cpus), random.below(self.threads - cpus) + cpus, 0)))
    }

    /// Under pin-only each record moves a thread to a CPU by its mask.
    pub fn repinned(&self, random: &mut Random) -> Log {
        let moves = iter::repeat_with(|| {
            let bit = 1 << random.below(CPUS as u64);
            packed(MASK, [0, random.below(self.threads) as u8, 0], [bit, !bit])
        });
        Log { setup: self.setup | PIN_ONLY, ..self.filled(Vec::new(), moves) }
    }

    /// No records.
    pub fn empty(&self) -> Log {
        Log { setup: self.setup, bytes: Vec::new() }
    }
}
