//! Times each exported call against upstream's body, its Verus text erased, behind a call of the same kind: `extern "C"`, not inlined, its value
//! written into lent room high byte first. Both sides test the length of the room. Upstream's side tests nothing else but what upstream's body
//! tests; ours tests its whole input.

#[path = "../../compare/src/hubcrackle.rs"]
mod hubcrackle;
#[path = "../../compare/src/random.rs"]
mod random;

use std::hint::black_box;
use std::time::Instant;

use hubcrackle::*;
use random::Random;
use upstream::{cpu_mask, ipi, spinlock_validate};

const OK: i32 = 0;
const ENOMEM: i32 = -12;
const ROOM: usize = 12;
const SEED: u64 = 1;
const INPUTS: usize = 1_024;
const ROUNDS: usize = 20_000;
const GOAL: f64 = 1.2;
const BYTES_A_CPU: usize = 5;
const MAX_CPUS: usize = 16;
/// The flag for a tag of two bits, the only one that upstream has.
const NARROW: u32 = 0;

/// Upstream's bodies as a C kernel would link them.
mod theirs {
    use super::*;

    /// Writes a value into lent room.
    #[inline(always)]
    fn put<const N: usize>(value: [u8; N], out: *mut u8, out_len: usize) -> i32 {
        if out_len < N {
            return ENOMEM;
        }
        // SAFETY: the room has N bytes.
        unsafe { out.cast::<[u8; N]>().write_unaligned(value) };
        OK
    }

    #[inline(never)]
    pub extern "C" fn compute_owner(cpu: u32, thread: u64, out: *mut u8, out_len: usize) -> i32 {
        put((spinlock_validate::spin_lock_compute_owner(cpu, thread as usize) as u64).to_be_bytes(), out, out_len)
    }

    #[inline(never)]
    pub extern "C" fn lock_valid(word: u64, cpu: u32, out: *mut u8, out_len: usize) -> i32 {
        put([spinlock_validate::spin_lock_valid(word as usize, cpu).into()], out, out_len)
    }

    #[inline(never)]
    pub extern "C" fn unlock_valid(word: u64, cpu: u32, thread: u64, out: *mut u8, out_len: usize) -> i32 {
        put([spinlock_validate::spin_unlock_valid(word as usize, cpu, thread as usize).into()], out, out_len)
    }

    #[inline(never)]
    pub extern "C" fn mask_mod(mask: u32, enable: u32, disable: u32, running: u32, pin_only: u32, out: *mut u8, out_len: usize) -> i32 {
        let result = cpu_mask::cpu_mask_mod(mask, enable, disable, running == 1, pin_only == 1);
        if result.error == OK { put(result.mask.to_be_bytes(), out, out_len) } else { result.error }
    }

    #[inline(never)]
    pub extern "C" fn pin_test(mask: u32, out: *mut u8, out_len: usize) -> i32 {
        put([cpu_mask::validate_pin_mask(mask).into()], out, out_len)
    }

    #[inline(never)]
    pub extern "C" fn pin(cpu: u32, max_cpus: u32, out: *mut u8, out_len: usize) -> i32 {
        match cpu_mask::cpu_pin_compute(cpu, max_cpus) {
            Ok(mask) => put(mask.to_be_bytes(), out, out_len),
            Err(code) => code,
        }
    }

    #[inline(never)]
    pub extern "C" fn ipi_mask(
        current: u32,
        prio: i32,
        mask: u32,
        cpus: *const u8,
        cpus_len: usize,
        num_cpus: u32,
        max_cpus: u32,
        out: *mut u8,
        out_len: usize,
    ) -> i32 {
        // SAFETY: the pointer comes with the length of its slice.
        let bytes = unsafe { std::slice::from_raw_parts(cpus, cpus_len) };
        let (mut prios, mut active) = ([0; MAX_CPUS], [false; MAX_CPUS]);
        for ((cpu, prio), active) in bytes.chunks_exact(BYTES_A_CPU).zip(&mut prios).zip(&mut active) {
            *active = cpu[0] == 1;
            *prio = i32::from_be_bytes([cpu[1], cpu[2], cpu[3], cpu[4]]);
        }
        let count = num_cpus as usize;
        let value = ipi::compute_ipi_mask(current, prio, mask, &prios[..count], &active[..count], num_cpus, max_cpus);
        put(value.to_be_bytes(), out, out_len)
    }

    #[inline(never)]
    pub extern "C" fn ipi_test(mask: u32, current: u32, max_cpus: u32, out: *mut u8, out_len: usize) -> i32 {
        put([ipi::validate_ipi_mask(mask, current, max_cpus).into()], out, out_len)
    }
}

/// How many bits the affinity masks of their own rows have. With none the walk looks at no CPU, and what is left of the call is the reading.
const BITS: [usize; 5] = [0, 1, 2, 8, 16];

/// Numbers that every call accepts: a CPU below 4, an aligned thread word, three more, and an affinity mask for each of `BITS`.
struct Input {
    cpu: u32,
    thread: u64,
    word: u64,
    masks: [u32; 3],
    affinity: [u32; BITS.len()],
    cpus: [u8; MAX_CPUS * BYTES_A_CPU],
}

/// A mask of so many of the sixteen CPUs, the current one last.
fn affinity(bits: usize, current: u32, random: &mut Random) -> u32 {
    let mut cpus: Vec<u32> = (0..MAX_CPUS as u32).filter(|&cpu| cpu != current).collect();
    for at in (1..cpus.len()).rev() {
        cpus.swap(at, random.below(at as u64 + 1) as usize);
    }
    cpus.push(current);
    cpus[..bits].iter().fold(0, |mask, cpu| mask | 1 << cpu)
}

fn inputs() -> Vec<Input> {
    let (mut random, mut random_affinity) = (Random::new(SEED), Random::new(SEED + 1));
    let mut made = Vec::new();
    for _ in 0..INPUTS {
        let cpu = random.below(4) as u32;
        let thread = random.next() << 2 | 4;
        let word = if random.below(2) == 0 { thread + u64::from(cpu) } else { random.next() };
        let masks = [random.word(), random.word(), !(1 << random.below(32))];
        let mut cpus = [0; MAX_CPUS * BYTES_A_CPU];
        for cpu in cpus.chunks_exact_mut(BYTES_A_CPU) {
            cpu[0] = random.below(2) as u8;
            cpu[1..].copy_from_slice(&(random.word() as i32 >> 24).to_be_bytes());
        }
        let affinity = BITS.map(|bits| affinity(bits, cpu, &mut random_affinity));
        made.push(Input { cpu, thread, word, masks, affinity, cpus });
    }
    made
}

/// Lent room at the start of a cache line, so that no run of the benchmark has it across two.
#[repr(align(64))]
struct Room([u8; ROOM]);

/// Compares both sides on every input, and prints the best time of each in ns a call.
fn row(name: &str, inputs: &[Input], ours: impl Fn(&Input, *mut u8) -> i32, theirs: impl Fn(&Input, *mut u8) -> i32) -> f64 {
    for input in inputs {
        let (mut a, mut b) = ([0x55; ROOM], [0x55; ROOM]);
        assert_eq!(ours(input, a.as_mut_ptr()), theirs(input, b.as_mut_ptr()), "the codes of {name} differ");
        assert_eq!(a, b, "the values of {name} differ");
    }
    let (mut best, mut room) = ([f64::MAX; 2], Room([0x55; ROOM]));
    let mut time = |best: &mut f64, call: &dyn Fn(&Input, *mut u8) -> i32| {
        let start = Instant::now();
        for input in inputs {
            black_box(call(black_box(input), black_box(room.0.as_mut_ptr())));
        }
        *best = best.min(start.elapsed().as_secs_f64() * 1e9 / inputs.len() as f64);
    };
    for _ in 0..ROUNDS {
        time(&mut best[0], &ours);
        time(&mut best[1], &theirs);
    }
    let ratio = best[0] / best[1];
    println!("{name:<38} {:>8.2} {:>9.2} {ratio:>7.2}", best[0], best[1]);
    ratio
}

/// The same arguments to both sides, and to ours one more where upstream's side has none.
macro_rules! row {
    ($name:expr, $inputs:expr, $ours:ident, $theirs:ident, |$i:ident| ($($argument:expr),*) $(, $more:expr)?) => {
        // SAFETY: every room has ROOM bytes.
        row($name, $inputs, |$i, out| unsafe { $ours($($argument,)* $($more,)? out, ROOM) }, |$i, out| theirs::$theirs($($argument,)* out, ROOM))
    };
}

fn main() {
    let inputs = &inputs();
    println!("{INPUTS} inputs, best of {ROUNDS} rounds; ns a call");
    println!("{:<38} {:>8} {:>9} {:>7}", "call", "proved", "upstream", "ratio");
    let four = 4 * BYTES_A_CPU;
    let all = MAX_CPUS * BYTES_A_CPU;
    let mut ratios = vec![
        row!("spin_lock_compute_owner", inputs, hubcrackle_spin_lock_compute_owner, compute_owner, |i| (i.cpu, i.thread), NARROW),
        row!("spin_lock_valid", inputs, hubcrackle_spin_lock_valid, lock_valid, |i| (i.word, i.cpu), NARROW),
        row!("spin_unlock_valid", inputs, hubcrackle_spin_unlock_valid, unlock_valid, |i| (i.word, i.cpu, i.thread), NARROW),
        row!("cpu_mask_mod", inputs, hubcrackle_cpu_mask_mod, mask_mod, |i| (i.masks[0], i.masks[1], i.masks[2], 0, 0)),
        row!("cpu_mask_mod, pin-only", inputs, hubcrackle_cpu_mask_mod, mask_mod, |i| (i.masks[0], i.masks[1], i.masks[2], 0, 1)),
        row!("validate_pin_mask", inputs, hubcrackle_validate_pin_mask, pin_test, |i| (!i.masks[2])),
        row!("cpu_pin_compute", inputs, hubcrackle_cpu_pin_compute, pin, |i| (i.cpu, 32)),
        row!("compute_ipi_mask, 4 CPUs", inputs, hubcrackle_compute_ipi_mask, ipi_mask, |i| (i.cpu, 0, i.masks[0], i.cpus.as_ptr(), four, 4, 4)),
        row!("compute_ipi_mask, 16 CPUs", inputs, hubcrackle_compute_ipi_mask, ipi_mask, |i| (i.cpu, 0, i.masks[0], i.cpus.as_ptr(), all, 16, 16)),
        row!("validate_ipi_mask", inputs, hubcrackle_validate_ipi_mask, ipi_test, |i| (i.masks[0] >> 16, i.cpu, 16)),
    ];
    for (which, bits) in BITS.iter().enumerate() {
        let name = format!("compute_ipi_mask, 16 CPUs, mask of {bits}");
        ratios.push(row!(&name, inputs, hubcrackle_compute_ipi_mask, ipi_mask, |i| (i.cpu, 0, i.affinity[which], i.cpus.as_ptr(), all, 16, 16)));
    }
    let over = ratios.iter().filter(|&&ratio| ratio > GOAL).count();
    println!("{over} of {} calls over {GOAL} times upstream's", ratios.len());
}
