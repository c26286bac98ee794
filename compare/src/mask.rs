//! The mask rule, the pin test and the pin.

use upstream::cpu_mask as theirs;
use upstream::error::{EINVAL, OK};

use crate::differences::Difference;
use crate::ours::{Call, Judge};
use crate::random::{Random, limits};

fn mask_mod(judge: &mut Judge, mask: u32, enable: u32, disable: u32, running: u32, pin_only: u32) {
    let call = Call::MaskMod { mask, enable, disable, running, pin_only };
    // Flags cross as 0 or 1.
    if running > 1 || pin_only > 1 {
        return judge.bars(call, Difference::MaskFlags);
    }
    let result = theirs::cpu_mask_mod(mask, enable, disable, running == 1, pin_only == 1);
    if result.error == OK {
        judge.gives(call, &result.mask.to_be_bytes());
    } else {
        assert_eq!((result.error, result.mask), (EINVAL, mask));
        judge.tally.meet(Difference::RefusedMask);
        judge.refuses(call);
    }
}

fn pin(judge: &mut Judge, cpu: u32, max_cpus: u32) {
    let call = Call::Pin { cpu, max_cpus };
    match theirs::cpu_pin_compute(cpu, max_cpus) {
        Ok(mask) => judge.gives(call, &mask.to_be_bytes()),
        Err(code) => {
            assert_eq!(code, EINVAL);
            judge.refuses(call);
        }
    }
}

fn pin_test(judge: &mut Judge, mask: u32) {
    judge.gives(Call::PinTest { mask }, &[theirs::validate_pin_mask(mask).into()]);
}

/// Every mask of four bits, with bits at the top for half of them.
fn small_masks() -> Vec<u32> {
    (0..16).chain((0..16).map(|low| low << 28)).collect()
}

pub fn compare(judge: &mut Judge, random: &mut Random) {
    let masks = small_masks();
    for &mask in &masks {
        for &enable in &masks {
            for &disable in &masks {
                for flags in 0..9 {
                    mask_mod(judge, mask, enable, disable, flags % 3, flags / 3);
                }
            }
        }
    }
    for cpu in (0..70).chain([u32::MAX]) {
        for max_cpus in (0..70).chain([u32::MAX]) {
            pin(judge, cpu, max_cpus);
        }
    }
    for mask in limits(32) {
        pin_test(judge, mask as u32);
    }
    for first in 0..32 {
        for second in 0..32 {
            pin_test(judge, 1 << first | 1 << second);
        }
    }
    for _ in 0..1_000_000 {
        let (mask, enable, disable) = (random.word(), random.word(), random.word());
        mask_mod(judge, mask, enable, disable, random.below(2) as u32, 0);
        // A mask of one bit comes of it, now and then.
        mask_mod(judge, mask, enable, !(1 << random.below(32)), 0, 1);
        pin_test(judge, mask & enable & disable & random.word() & random.word());
    }
}
