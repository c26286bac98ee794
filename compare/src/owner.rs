//! The owner word with a tag of two bits, as upstream has it.

use upstream::spinlock_validate as theirs;

use crate::differences::Difference;
use crate::ours::{Call, Judge, NARROW};
use crate::random::{Random, limits};

/// Upstream's `requires`: outside it our calls refuse.
fn cpu_fits(cpu: u32) -> bool {
    cpu < theirs::MAX_CPUS
}

fn thread_fits(thread: u64) -> bool {
    thread != 0 && thread as usize & theirs::CPU_MASK == 0
}

fn compute(judge: &mut Judge, cpu: u32, thread: u64) {
    let call = Call::ComputeOwner { cpu, thread, wide: NARROW };
    if !cpu_fits(cpu) || !thread_fits(thread) {
        return judge.excludes(call, Difference::ComputeOwner);
    }
    let word = theirs::spin_lock_compute_owner(cpu, thread as usize) as u64;
    judge.gives(call, &word.to_be_bytes());
    // Upstream's decoding is a specification. A word decodes to what made it.
    let mut value = [0; 9];
    value[..8].copy_from_slice(&thread.to_be_bytes());
    value[8] = cpu as u8;
    judge.decodes(word, Some(value));
}

fn lock_valid(judge: &mut Judge, word: u64, cpu: u32) {
    let call = Call::LockValid { word, cpu, wide: NARROW };
    if cpu_fits(cpu) {
        judge.gives(call, &[theirs::spin_lock_valid(word as usize, cpu).into()]);
    } else {
        judge.excludes(call, Difference::LockValid);
    }
}

fn unlock_valid(judge: &mut Judge, word: u64, cpu: u32, thread: u64) {
    let call = Call::UnlockValid { word, cpu, thread, wide: NARROW };
    if cpu_fits(cpu) && thread_fits(thread) {
        judge.gives(call, &[theirs::spin_unlock_valid(word as usize, cpu, thread as usize).into()]);
    } else {
        judge.excludes(call, Difference::UnlockValid);
    }
}

pub fn compare(judge: &mut Judge, random: &mut Random) {
    judge.decodes(0, Some([0; 9]));
    for word in 1..4 {
        judge.decodes(word, None);
    }
    let words = limits(64);
    let cpus: Vec<u32> = (0..6).chain([1 << 16, u32::MAX]).collect();
    for &cpu in &cpus {
        for &word in &words {
            compute(judge, cpu, word);
            lock_valid(judge, word, cpu);
            for &thread in &words {
                unlock_valid(judge, word, cpu, thread);
            }
        }
    }
    for _ in 0..500_000 {
        let (cpu, thread) = (random.below(5) as u32, random.next() & !3);
        compute(judge, cpu, thread);
        lock_valid(judge, random.next(), cpu);
        unlock_valid(judge, thread + random.below(4), cpu, thread);
        unlock_valid(judge, random.next(), cpu, thread);
    }
}
