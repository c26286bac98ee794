//! The owner word with a tag of four bits. Upstream has none, so each call is held to the plain account of it here.

use crate::differences::Difference;
use crate::ours::{Call, Judge, WIDE};
use crate::random::{Random, limits};

/// The bits of the tag, which are the greatest CPU too, and those of a tag of two bits.
const TAG: u64 = 15;
const NARROW_TAG: u64 = 3;

/// Numbers that are no flag.
const NO_FLAG: [u32; 2] = [2, u32::MAX];

fn cpu_fits(cpu: u32) -> bool {
    u64::from(cpu) <= TAG
}

/// The word of a thread on a CPU.
fn made(cpu: u32, thread: u64) -> Option<u64> {
    (cpu_fits(cpu) && thread != 0 && thread & TAG == 0).then_some(thread | u64::from(cpu))
}

fn compute(judge: &mut Judge, cpu: u32, thread: u64) {
    let value = made(cpu, thread).map(u64::to_be_bytes);
    judge.widens(Call::ComputeOwner { cpu, thread, wide: WIDE }, value.as_ref().map(|value| &value[..]));
}

fn decode(judge: &mut Judge, word: u64) {
    let mut value = [0; 9];
    value[..8].copy_from_slice(&(word & !TAG).to_be_bytes());
    value[8] = (word & TAG) as u8;
    // A tag without a thread is no word.
    let bad = (1..=TAG).contains(&word);
    judge.widens(Call::DecodeOwner { word, wide: WIDE }, (!bad).then_some(&value));
}

fn lock_valid(judge: &mut Judge, word: u64, cpu: u32) {
    let value = [u8::from(word == 0 || word & TAG != u64::from(cpu))];
    judge.widens(Call::LockValid { word, cpu, wide: WIDE }, cpu_fits(cpu).then_some(&value));
}

fn unlock_valid(judge: &mut Judge, word: u64, cpu: u32, thread: u64) {
    let value = made(cpu, thread).map(|own| [u8::from(own == word)]);
    judge.widens(Call::UnlockValid { word, cpu, thread, wide: WIDE }, value.as_ref().map(|value| &value[..]));
}

/// Every call with a number that is no flag.
fn no_flag(judge: &mut Judge, word: u64, cpu: u32, thread: u64, wide: u32) {
    judge.bars(Call::ComputeOwner { cpu, thread, wide }, Difference::WidthFlag);
    judge.bars(Call::DecodeOwner { word, wide }, Difference::WidthFlag);
    judge.bars(Call::LockValid { word, cpu, wide }, Difference::WidthFlag);
    judge.bars(Call::UnlockValid { word, cpu, thread, wide }, Difference::WidthFlag);
}

pub fn compare(judge: &mut Judge, random: &mut Random) {
    for at in 0..500_000 {
        // A fourth of the thread words leave room for two bits only.
        let room = if random.below(4) == 0 { NARROW_TAG } else { TAG };
        let (cpu, thread) = (random.below(17) as u32, random.next() & !room);
        // The word of the two, or that of the CPU beside it.
        let word = thread | (u64::from(cpu) ^ random.below(2));
        compute(judge, cpu, thread);
        decode(judge, word);
        decode(judge, random.below(32));
        lock_valid(judge, word, cpu);
        lock_valid(judge, random.next(), cpu);
        unlock_valid(judge, word, cpu, thread);
        unlock_valid(judge, random.next(), cpu, thread);
        no_flag(judge, word, cpu, thread, NO_FLAG[at % NO_FLAG.len()]);
    }
    // The limits, and the last thread word.
    let words: Vec<u64> = limits(64).into_iter().chain([!TAG]).collect();
    let cpus: Vec<u32> = (0..18).chain([1 << 16, u32::MAX]).collect();
    for &word in &words {
        decode(judge, word);
        for &cpu in &cpus {
            compute(judge, cpu, word);
            lock_valid(judge, word, cpu);
            for &thread in &words {
                unlock_valid(judge, word, cpu, thread);
            }
        }
    }
}
