//! Which CPUs get an interrupt, and the test of a mask.

use upstream::ipi as theirs;

use crate::differences::Difference;
use crate::ours::{Call, Judge};
use crate::random::Random;

const BYTES_A_CPU: usize = 5;

/// CPUs as upstream takes them, and as bytes.
struct Cpus {
    prios: Vec<i32>,
    active: Vec<bool>,
    bytes: Vec<u8>,
}

/// Priorities near the target's and at the ends of their range.
fn priority(random: &mut Random, target: i32) -> i32 {
    match random.below(6) {
        0 => i32::MIN,
        1 => i32::MAX,
        2 => random.word() as i32,
        near => target.wrapping_add(near as i32 - 4),
    }
}

fn cpus(random: &mut Random, count: u32, target: i32) -> Cpus {
    let mut made = Cpus { prios: vec![], active: vec![], bytes: vec![] };
    for _ in 0..count {
        let (active, prio) = (random.below(4) != 0, priority(random, target));
        made.active.push(active);
        made.prios.push(prio);
        made.bytes.push(active.into());
        made.bytes.extend(prio.to_be_bytes());
    }
    made
}

fn ipi_mask(judge: &mut Judge, random: &mut Random, current: u32, num_cpus: u32, max_cpus: u32) {
    let (mask, target) = (random.word() | random.word(), random.word());
    let prio = priority(random, target as i32);
    let made = cpus(random, num_cpus, prio);
    let call = Call::Ipi { current, prio, mask, cpus: &made.bytes, num_cpus, max_cpus };
    // Upstream's `requires`.
    if max_cpus > theirs::MAX_CPUS || num_cpus > max_cpus || current >= num_cpus {
        return judge.excludes(call, Difference::IpiNumbers);
    }
    let value = theirs::compute_ipi_mask(current, prio, mask, &made.prios, &made.active, num_cpus, max_cpus);
    judge.gives(call, &value.to_be_bytes());
    // Bytes that are no CPUs: one too few, one too many, a flag that is no flag.
    let short = &made.bytes[1..];
    judge.bars(Call::Ipi { current, prio, mask, cpus: short, num_cpus, max_cpus }, Difference::CpuLength);
    let mut bytes = made.bytes.clone();
    bytes.push(0);
    judge.bars(Call::Ipi { current, prio, mask, cpus: &bytes, num_cpus, max_cpus }, Difference::CpuLength);
    bytes.pop();
    bytes[random.below(num_cpus.into()) as usize * BYTES_A_CPU] = 2 + random.below(254) as u8;
    judge.bars(Call::Ipi { current, prio, mask, cpus: &bytes, num_cpus, max_cpus }, Difference::ActiveFlag);
}

fn mask_test(judge: &mut Judge, mask: u32, current: u32, max_cpus: u32) {
    let call = Call::IpiTest { mask, current, max_cpus };
    if current < max_cpus && max_cpus <= theirs::MAX_CPUS {
        judge.gives(call, &[theirs::validate_ipi_mask(mask, current, max_cpus).into()]);
    } else {
        judge.excludes(call, Difference::IpiTest);
    }
}

pub fn compare(judge: &mut Judge, random: &mut Random) {
    for max_cpus in 0..=18 {
        for num_cpus in 0..=18 {
            for current in 0..=18 {
                for _ in 0..40 {
                    ipi_mask(judge, random, current, num_cpus, max_cpus);
                }
            }
        }
    }
    // So many CPUs that five bytes for each overflow.
    for num_cpus in [u32::MAX, u32::MAX / 5 + 1, 1 << 31] {
        judge.excludes(Call::Ipi { current: 0, prio: 0, mask: 1, cpus: &[], num_cpus, max_cpus: 16 }, Difference::IpiNumbers);
    }
    for max_cpus in 0..=17 {
        for current in 0..=17 {
            for mask in 0..1 << 15 {
                mask_test(judge, mask << 2 | mask & 3, current, max_cpus);
            }
        }
    }
    for _ in 0..1_000_000 {
        mask_test(judge, random.word() >> random.below(32), random.below(18) as u32, random.below(18) as u32);
    }
}
