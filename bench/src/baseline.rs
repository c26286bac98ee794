//! The rules of the machine and its log as one would write them in Rust for speed: one machine, changed in place, compiled once for each width of
//! an owner word's tag.
//!
//! It shares nothing with the proved code but the document of rules. The benchmark compares both on the same bytes before it times them.

use std::slice;

pub const OK: i32 = 0;
const EPERM: i32 = -1;
const ENOMEM: i32 = -12;
const EBUSY: i32 = -16;
const EINVAL: i32 = -22;
const EDEADLK: i32 = -45;
const EALREADY: i32 = -114;
const EOVERFLOW: i32 = -139;

pub const RECORD_BYTES: usize = 12;
pub const ANSWER_BYTES: usize = 8;
const MAX_LOG_BYTES: usize = 24_576;

/// The bit of a setup byte that asks for wide tags.
const WIDE: u8 = 4;
/// How many CPUs a tag tells apart, and what thread words are multiples of.
const NARROW_CPUS: usize = 4;
const WIDE_CPUS: usize = 16;
const THREADS: usize = 32;
const LOCKS: usize = 128;
const IDLE: i32 = 128;
const MAX_DEPTH: u32 = 255;

#[derive(Clone, Copy)]
struct Cpu {
    active: bool,
    current: Option<u32>,
    priority: i32,
    hold: u32,
}

#[derive(Clone, Copy)]
struct Thread {
    mask: u32,
    priority: i32,
    place: Option<u32>,
}

#[derive(Clone, Copy)]
struct Lock {
    owner: Option<u32>,
    depth: u32,
    irq_saved: bool,
    word: u64,
}

/// `CPUS` is how many CPUs a tag tells apart.
#[derive(Clone)]
pub struct Machine<const CPUS: usize> {
    n: usize,
    pin_only: bool,
    cpus: [Cpu; CPUS],
    threads: [Thread; THREADS],
    locks: [Lock; LOCKS],
}

/// The fields of a record, each as wide as it is packed.
struct Record {
    op: u8,
    cpu: usize,
    thread: usize,
    lock: usize,
    zero: u8,
    a: u32,
    b: u32,
}

/// A code and a value.
type Answer = (i32, u32);

impl Lock {
    const FREE: Lock = Lock { owner: None, depth: 0, irq_saved: false, word: 0 };

    fn take(&mut self, thread: u32, word: u64) {
        *self = Lock { owner: Some(thread), depth: 1, irq_saved: true, word };
    }

    fn is_valid(&self) -> bool {
        match self.owner {
            None => self.depth == 0 && !self.irq_saved,
            Some(_) => (1..=MAX_DEPTH).contains(&self.depth),
        }
    }
}

impl Record {
    fn parse(bytes: &[u8; RECORD_BYTES]) -> Record {
        Record {
            op: bytes[0] >> 4,
            cpu: usize::from(bytes[0] & 15),
            thread: usize::from(bytes[1]),
            lock: usize::from(bytes[2]),
            zero: bytes[3],
            a: u32::from_be_bytes([bytes[4], bytes[5], bytes[6], bytes[7]]),
            b: u32::from_be_bytes([bytes[8], bytes[9], bytes[10], bytes[11]]),
        }
    }

    /// Used fields in range, all else zero. Inlined in the loop of each width.
    #[inline(always)]
    fn is_well_formed(&self, n: usize) -> bool {
        let cpu = self.cpu < n;
        let thread = self.thread < THREADS;
        let lock = self.lock < LOCKS;
        let no_cpu = self.cpu == 0;
        let no_thread = self.thread == 0;
        let no_lock = self.lock == 0;
        let no_masks = self.a == 0 && self.b == 0;
        self.zero == 0
            && match self.op {
                0 | 1 => cpu && no_thread && no_lock && no_masks,
                2 | 3 | 8 | 10 | 12 => cpu && thread && no_lock && no_masks,
                4 => cpu && no_thread && lock && self.a < 2 && self.b == 0,
                6 => cpu && no_thread && lock && no_masks,
                7 => no_cpu && thread && no_lock,
                9 => no_cpu && thread && no_lock && (-128..=127).contains(&(self.a as i32)) && self.b == 0,
                11 => no_cpu && no_thread && lock && no_masks,
                _ => false,
            }
    }
}

impl<const CPUS: usize> Machine<CPUS> {
    /// The fresh machine of a setup byte for this width. In a wide one a CPU field of 0 means 16.
    pub fn fresh(setup: u8) -> Option<Machine<CPUS>> {
        let field = usize::from(setup >> 4);
        let n = if CPUS == WIDE_CPUS && field == 0 { WIDE_CPUS } else { field };
        let pin_only = setup & 8 != 0;
        if setup & 3 != 0 || n == 0 || n > CPUS {
            return None;
        }
        let mask = if pin_only { 1 } else { u32::MAX };
        Some(Machine {
            n,
            pin_only,
            cpus: [Cpu { active: false, current: None, priority: IDLE, hold: 0 }; CPUS],
            threads: [Thread { mask, priority: 0, place: None }; THREADS],
            locks: [Lock::FREE; LOCKS],
        })
    }

    /// The owner word of a thread on a CPU.
    fn word(thread: u32, cpu: usize) -> u64 {
        CPUS as u64 * (u64::from(thread) + 1) + cpu as u64
    }

    /// The CPU in an owner word.
    fn cpu_of(word: u64) -> usize {
        (word % CPUS as u64) as usize
    }

    fn is_current(&self, cpu: usize, thread: u32) -> bool {
        cpu < self.n && self.cpus[cpu].current == Some(thread)
    }

    fn lock_is_well_formed(&self, lock: &Lock) -> bool {
        lock.is_valid()
            && match lock.owner {
                None => lock.word == 0,
                Some(thread) => {
                    let cpu = Self::cpu_of(lock.word);
                    lock.irq_saved && lock.word == Self::word(thread, cpu) && self.is_current(cpu, thread)
                }
            }
    }

    fn cpu_is_well_formed(&self, c: usize, hold: u32) -> bool {
        let cpu = &self.cpus[c];
        if c >= self.n && (cpu.active || cpu.hold != 0) {
            return false;
        }
        cpu.hold == hold
            && match cpu.current {
                None => cpu.priority == IDLE,
                Some(t) => {
                    cpu.active
                        && self
                            .threads
                            .get(t as usize)
                            .is_some_and(|thread| thread.priority == cpu.priority && thread.place == Some(c as u32) && thread.mask >> c & 1 == 1)
                }
            }
    }

    /// A mask has one bit, a CPU's of the machine.
    fn pins(&self, mask: u32) -> bool {
        mask.count_ones() == 1 && mask >> self.n == 0
    }

    fn thread_is_well_formed(&self, t: usize) -> bool {
        let thread = &self.threads[t];
        thread.place.is_none_or(|c| self.is_current(c as usize, t as u32))
            && (-128..=127).contains(&thread.priority)
            && (!self.pin_only || self.pins(thread.mask))
    }

    fn is_well_formed(&self) -> bool {
        let mut holds = [0u32; CPUS];
        for lock in self.locks.iter().filter(|lock| lock.word != 0) {
            holds[Self::cpu_of(lock.word)] += lock.depth;
        }
        (1..=CPUS).contains(&self.n)
            && self.locks.iter().all(|lock| self.lock_is_well_formed(lock))
            && (0..CPUS).all(|c| self.cpu_is_well_formed(c, holds[c]))
            && (0..THREADS).all(|t| self.thread_is_well_formed(t))
    }

    fn up(&mut self, c: usize) -> Answer {
        let cpu = &mut self.cpus[c];
        if cpu.active {
            return (EALREADY, 0);
        }
        cpu.active = true;
        (OK, 0)
    }

    fn down(&mut self, c: usize) -> Answer {
        let cpu = &mut self.cpus[c];
        if !cpu.active {
            return (EALREADY, 0);
        }
        if cpu.current.is_some() {
            return (EBUSY, 0);
        }
        cpu.active = false;
        (OK, 0)
    }

    fn put(&mut self, c: usize, t: usize) -> Answer {
        let cpu = &mut self.cpus[c];
        let thread = &mut self.threads[t];
        if !cpu.active {
            return (EINVAL, 0);
        }
        if cpu.current.is_some() || thread.place.is_some() {
            return (EBUSY, 0);
        }
        if thread.mask >> c & 1 == 0 {
            return (EINVAL, 0);
        }
        cpu.current = Some(t as u32);
        cpu.priority = thread.priority;
        thread.place = Some(c as u32);
        (OK, 0)
    }

    fn take(&mut self, c: usize, t: usize) -> Answer {
        let cpu = &mut self.cpus[c];
        if cpu.current != Some(t as u32) {
            return (EPERM, 0);
        }
        if cpu.hold > 0 {
            return (EBUSY, 0);
        }
        cpu.current = None;
        cpu.priority = IDLE;
        self.threads[t].place = None;
        (OK, 0)
    }

    fn acquire(&mut self, c: usize, l: usize, nested: bool) -> Answer {
        let cpu = &mut self.cpus[c];
        let lock = &mut self.locks[l];
        let Some(thread) = cpu.current else { return (EINVAL, lock.depth) };
        if lock.owner.is_none() {
            lock.take(thread, Self::word(thread, c));
        } else if nested && lock.word == Self::word(thread, c) && lock.depth < MAX_DEPTH {
            lock.depth += 1;
        } else if !nested && Self::cpu_of(lock.word) == c {
            return (EDEADLK, lock.depth);
        } else {
            return (EBUSY, lock.depth);
        }
        cpu.hold += 1;
        (OK, lock.depth)
    }

    fn release(&mut self, c: usize, l: usize) -> Answer {
        let cpu = &mut self.cpus[c];
        let lock = &mut self.locks[l];
        let Some(thread) = cpu.current else { return (EINVAL, lock.depth) };
        if lock.word != Self::word(thread, c) {
            return (EPERM, lock.depth);
        }
        if lock.depth == 1 {
            *lock = Lock::FREE;
        } else {
            lock.depth -= 1;
        }
        cpu.hold -= 1;
        (OK, lock.depth)
    }

    fn change_mask(&mut self, t: usize, mask: u32) -> Answer {
        let refused = self.pin_only && !self.pins(mask);
        let thread = &mut self.threads[t];
        if thread.place.is_some() || refused {
            return (EINVAL, thread.mask);
        }
        thread.mask = mask;
        (OK, mask)
    }

    fn set_priority(&mut self, t: usize, priority: i32) -> Answer {
        let thread = &mut self.threads[t];
        if thread.place.is_some() {
            return (EBUSY, 0);
        }
        thread.priority = priority;
        (OK, 0)
    }

    fn ipi(&self, current: usize, t: usize) -> Answer {
        let thread = &self.threads[t];
        let mut mask = 0;
        for (c, cpu) in self.cpus[..self.n].iter().enumerate() {
            if c != current && cpu.active && thread.mask >> c & 1 == 1 && cpu.priority > thread.priority {
                mask |= 1 << c;
            }
        }
        (OK, mask)
    }

    /// Not inlined, because its loop slows the other operations down there.
    #[inline(never)]
    fn unwind(&mut self, c: usize, t: usize) -> Answer {
        let cpu = &mut self.cpus[c];
        if cpu.current != Some(t as u32) {
            return (EPERM, 0);
        }
        let hold = cpu.hold;
        cpu.hold = 0;
        for lock in &mut self.locks {
            if lock.word != 0 && Self::cpu_of(lock.word) == c {
                *lock = Lock::FREE;
            }
        }
        (OK, hold)
    }

    pub fn step(&mut self, bytes: &[u8; RECORD_BYTES]) -> Answer {
        let r = Record::parse(bytes);
        if !r.is_well_formed(self.n) {
            return (EINVAL, 0);
        }
        match r.op {
            0 => self.up(r.cpu),
            1 => self.down(r.cpu),
            2 => self.put(r.cpu, r.thread),
            3 => self.take(r.cpu, r.thread),
            4 => self.acquire(r.cpu, r.lock, r.a == 1),
            6 => self.release(r.cpu, r.lock),
            7 => self.change_mask(r.thread, (self.threads[r.thread].mask | r.a) & !r.b),
            8 => self.change_mask(r.thread, 1 << r.cpu),
            9 => self.set_priority(r.thread, r.a as i32),
            10 => self.ipi(r.cpu, r.thread),
            11 => (OK, self.locks[r.lock].word as u32),
            _ => self.unwind(r.cpu, r.thread),
        }
    }

    /// A log on this machine, its answers over the front of the room.
    fn run(&mut self, log: &[u8], out: &mut [u8]) -> i32 {
        if !self.is_well_formed() {
            return EINVAL;
        }
        if log.len() > MAX_LOG_BYTES {
            return EOVERFLOW;
        }
        if log.len() % RECORD_BYTES != 0 {
            return EINVAL;
        }
        // SAFETY: the log has this many records, one behind the other, and a record is its bytes.
        let records = unsafe { slice::from_raw_parts(log.as_ptr().cast::<[u8; RECORD_BYTES]>(), log.len() / RECORD_BYTES) };
        if out.len() < records.len() * ANSWER_BYTES {
            return ENOMEM;
        }
        for (record, room) in records.iter().zip(out.chunks_exact_mut(ANSWER_BYTES)) {
            let (code, value) = self.step(record);
            room[..4].copy_from_slice(&code.to_be_bytes());
            room[4..].copy_from_slice(&value.to_be_bytes());
        }
        OK
    }
}

/// A log on the fresh machine of a setup byte for one width. Not inlined, so that each width has a function of its own.
#[inline(never)]
fn run_fresh<const CPUS: usize>(setup: u8, log: &[u8], out: &mut [u8]) -> i32 {
    match Machine::<CPUS>::fresh(setup) {
        Some(mut machine) => machine.run(log, out),
        None => EINVAL,
    }
}

/// A log on the fresh machine of a setup byte, as the exported call runs it.
#[inline(never)]
pub extern "C" fn run(setup: u8, log: *const u8, log_len: usize, out: *mut u8, out_len: usize) -> i32 {
    // SAFETY: the benchmark's one caller passes two slices of its own, with their lengths.
    let (log, out) = unsafe { (slice::from_raw_parts(log, log_len), slice::from_raw_parts_mut(out, out_len)) };
    if setup & WIDE == 0 { run_fresh::<NARROW_CPUS>(setup, log, out) } else { run_fresh::<WIDE_CPUS>(setup, log, out) }
}
