//! The exported checker of claimed answers. bench/ uses this file too.

#![allow(dead_code)]

use crate::hubcrackle::hubcrackle_check;

const OK: i32 = 0;
const DIFFERS: i32 = 1;
const EINVAL: i32 = -22;

/// What stands in the place of the record before a call, and stays there where none is named.
const UNNAMED: u32 = u32::MAX;

/// What the checker says of a claim: its code, and the record that it names.
#[derive(Debug, PartialEq)]
pub struct Verdict {
    code: i32,
    record: u32,
}

impl Verdict {
    /// Every byte is right.
    pub const RIGHT: Verdict = Verdict { code: OK, record: UNNAMED };

    /// The claim has not 8 bytes for each record.
    pub const BAD_LENGTH: Verdict = Verdict { code: EINVAL, record: UNNAMED };

    /// The lowest byte that differs stands in the answer to this record.
    pub fn differs(record: usize) -> Verdict {
        Verdict { code: DIFFERS, record: record as u32 }
    }
}

/// A claim to a setup byte and a log.
pub fn check(setup: u8, log: &[u8], claim: &[u8]) -> Verdict {
    let mut record = UNNAMED;
    // SAFETY: each pointer comes with the length of its slice, and the record is one of this function.
    let code = unsafe { hubcrackle_check(setup, log.as_ptr(), log.len(), claim.as_ptr(), claim.len(), &mut record) };
    Verdict { code, record }
}
