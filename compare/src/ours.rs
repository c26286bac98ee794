//! A call of an exported function, and how its answer is held to what is expected.

use std::process;

use crate::differences::Difference;
use crate::hubcrackle::*;
use crate::sample::Sample;
use crate::tally::{Kind, Tally};

pub const OK: i32 = 0;
pub const ENOMEM: i32 = -12;
pub const EINVAL: i32 = -22;

/// Room for the longest value, nine bytes, and some to stay as it is.
pub const ROOM: usize = 12;
pub const FILL: u8 = 0x55;

/// The flag of the owner-word calls: a tag of two bits, or of four.
pub const NARROW: u32 = 0;
pub const WIDE: u32 = 1;

/// A call of one exported function.
#[derive(Clone, Copy, Debug)]
pub enum Call<'a> {
    ComputeOwner { cpu: u32, thread: u64, wide: u32 },
    DecodeOwner { word: u64, wide: u32 },
    LockValid { word: u64, cpu: u32, wide: u32 },
    UnlockValid { word: u64, cpu: u32, thread: u64, wide: u32 },
    MaskMod { mask: u32, enable: u32, disable: u32, running: u32, pin_only: u32 },
    PinTest { mask: u32 },
    Pin { cpu: u32, max_cpus: u32 },
    Ipi { current: u32, prio: i32, mask: u32, cpus: &'a [u8], num_cpus: u32, max_cpus: u32 },
    IpiTest { mask: u32, current: u32, max_cpus: u32 },
}

impl Call<'_> {
    /// The code of the call with this much room.
    pub fn make(&self, room: &mut [u8]) -> i32 {
        let (out, len) = (room.as_mut_ptr(), room.len());
        // SAFETY: each pointer comes with the length of its slice.
        unsafe {
            match *self {
                Call::ComputeOwner { cpu, thread, wide } => hubcrackle_spin_lock_compute_owner(cpu, thread, wide, out, len),
                Call::DecodeOwner { word, wide } => hubcrackle_spin_lock_decode_owner(word, wide, out, len),
                Call::LockValid { word, cpu, wide } => hubcrackle_spin_lock_valid(word, cpu, wide, out, len),
                Call::UnlockValid { word, cpu, thread, wide } => hubcrackle_spin_unlock_valid(word, cpu, thread, wide, out, len),
                Call::MaskMod { mask, enable, disable, running, pin_only } => {
                    hubcrackle_cpu_mask_mod(mask, enable, disable, running, pin_only, out, len)
                }
                Call::PinTest { mask } => hubcrackle_validate_pin_mask(mask, out, len),
                Call::Pin { cpu, max_cpus } => hubcrackle_cpu_pin_compute(cpu, max_cpus, out, len),
                Call::Ipi { current, prio, mask, cpus, num_cpus, max_cpus } => {
                    hubcrackle_compute_ipi_mask(current, prio, mask, cpus.as_ptr(), cpus.len(), num_cpus, max_cpus, out, len)
                }
                Call::IpiTest { mask, current, max_cpus } => hubcrackle_validate_ipi_mask(mask, current, max_cpus, out, len),
            }
        }
    }
}

/// A log on the fresh machine of a setup byte.
pub fn run(setup: u8, log: &[u8], out: &mut [u8]) -> i32 {
    // SAFETY: as above.
    unsafe { hubcrackle_run(setup, log.as_ptr(), log.len(), out.as_mut_ptr(), out.len()) }
}

/// Holds calls to what is expected, and counts them.
pub struct Judge {
    pub tally: Tally,
    sample: Option<Sample>,
}

impl Judge {
    pub fn new(sample: Option<Sample>) -> Judge {
        Judge { tally: Tally::default(), sample }
    }

    /// Begins a part of the comparison.
    pub fn begin(&mut self) {
        if let Some(sample) = &mut self.sample {
            sample.begin();
        }
    }

    fn hold(&mut self, kind: Kind, call: Call, len: usize, code: i32, value: &[u8]) {
        let mut room = [FILL; ROOM];
        let mut expected = [FILL; ROOM];
        if code == OK {
            expected[..value.len()].copy_from_slice(value);
        }
        let given = call.make(&mut room[..len]);
        if given != code || room != expected {
            eprintln!("{call:?} with room for {len}: code {given}, room {room:x?}; expected code {code}, room {expected:x?}");
            process::exit(1);
        }
        self.tally.count(kind);
        if let Some(sample) = &mut self.sample {
            sample.add(&call, len, code, &expected);
        }
    }

    /// The call must give this value, and ENOMEM with room for one byte less.
    fn accepted(&mut self, kind: Kind, call: Call, value: &[u8]) {
        self.hold(kind, call, ROOM, OK, value);
        if self.tally.calls % 16 == 0 {
            self.hold(Kind::Repeated, call, value.len(), OK, value);
            self.hold(Kind::Repeated, call, value.len() - 1, ENOMEM, value);
            self.tally.meet(Difference::Room);
        }
    }

    /// The call must be refused with EINVAL, with no room too.
    fn refused(&mut self, kind: Kind, call: Call) {
        self.hold(kind, call, ROOM, EINVAL, &[]);
        if self.tally.calls % 16 == 0 {
            self.hold(Kind::Repeated, call, 0, EINVAL, &[]);
        }
    }

    /// Upstream's body gave this value.
    pub fn gives(&mut self, call: Call, value: &[u8]) {
        self.accepted(Kind::Compared, call, value);
    }

    /// Upstream's body refused too.
    pub fn refuses(&mut self, call: Call) {
        self.refused(Kind::Compared, call);
    }

    /// Upstream's `requires` excludes the call.
    pub fn excludes(&mut self, call: Call, difference: Difference) {
        self.tally.meet(difference);
        self.refused(Kind::Excluded, call);
    }

    /// Upstream's types exclude the call.
    pub fn bars(&mut self, call: Call, difference: Difference) {
        self.tally.meet(difference);
        self.refused(Kind::Boundary, call);
    }

    /// The call must give this value, or be refused where there is none.
    fn answered(&mut self, kind: Kind, call: Call, value: Option<&[u8]>) {
        match value {
            Some(value) => self.accepted(kind, call, value),
            None => self.refused(kind, call),
        }
    }

    /// A word and its decoding, none where it has none.
    pub fn decodes(&mut self, word: u64, value: Option<[u8; 9]>) {
        self.tally.meet(Difference::DecodeOwner);
        self.answered(Kind::Decoded, Call::DecodeOwner { word, wide: NARROW }, value.as_ref().map(|value| &value[..]));
    }

    /// A call with a wide tag and its value, none where it is refused.
    pub fn widens(&mut self, call: Call, value: Option<&[u8]>) {
        self.tally.meet(Difference::Width);
        self.answered(Kind::Wide, call, value);
    }

    /// Writes the sample, if there is one, and hands the counts back.
    pub fn finish(self) -> Tally {
        if let Some(sample) = self.sample {
            sample.write();
        }
        self.tally
    }
}
