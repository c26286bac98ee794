//! Claims to a log whose right answers are known, by the exported checker, against a plain account: the right answers are accepted; where bytes
//! differ, the lowest of them says which record is named; another length is refused.

use std::process;

use crate::checker::{Verdict, check};
use crate::random::Random;

const RECORD_BYTES: usize = 12;
const ANSWER_BYTES: usize = 8;

/// In how many claims to a log some bytes differ, and in how many of these it is one byte alone.
const WRONG: usize = 12;
const WRONG_IN_ONE: usize = 8;
/// How many bytes differ at most.
const BYTES_WRONG: u64 = 16;

/// Holds claims to one log, and counts them.
struct Claims<'a> {
    setup: u8,
    log: &'a [u8],
    right: &'a [u8],
    held: usize,
}

impl Claims<'_> {
    /// Ends the process where the verdict is another.
    fn hold(&mut self, claim: &[u8], expected: Verdict) {
        let given = check(self.setup, self.log, claim);
        if given != expected {
            eprintln!("a claim of {} bytes to a log of {}: {given:?}; expected {expected:?}", claim.len(), self.log.len());
            process::exit(1);
        }
        self.held += 1;
    }

    /// Makes so many bytes other than the right ones, some perhaps twice.
    fn hold_wrong(&mut self, bytes: u64, random: &mut Random) {
        let mut claim = self.right.to_vec();
        let places: Vec<usize> = (0..bytes).map(|_| random.below(claim.len() as u64) as usize).collect();
        for &at in &places {
            claim[at] = self.right[at] ^ (1 + random.below(u64::from(u8::MAX)) as u8);
        }
        let lowest = places.iter().min().expect("a byte differs");
        self.hold(&claim, Verdict::differs(lowest / ANSWER_BYTES));
    }

    /// Right as far as it goes, and too short or too long.
    fn hold_lengths(&mut self, random: &mut Random) {
        let right = self.right.len();
        let longer = [self.right, &[0; ANSWER_BYTES]].concat();
        for len in [0, random.below(right as u64) as usize, right - ANSWER_BYTES, right - 1, right + 1, right + ANSWER_BYTES] {
            self.hold(&longer[..len], Verdict::BAD_LENGTH);
        }
    }
}

/// Holds claims to a log of one record at least; how many there were.
fn hold(setup: u8, log: &[u8], right: &[u8], random: &mut Random) -> usize {
    let mut claims = Claims { setup, log, right, held: 0 };
    claims.hold(right, Verdict::RIGHT);
    for turn in 0..WRONG {
        let bytes = if turn < WRONG_IN_ONE { 1 } else { 2 + random.below(BYTES_WRONG - 1) };
        claims.hold_wrong(bytes, random);
    }
    claims.hold_lengths(random);
    claims.held
}

/// Holds claims to a log, and to its front of some records; how many there were.
pub fn compare(setup: u8, log: &[u8], right: &[u8], random: &mut Random) -> usize {
    let records = 1 + random.below((log.len() / RECORD_BYTES) as u64) as usize;
    let front = hold(setup, &log[..records * RECORD_BYTES], &right[..records * ANSWER_BYTES], random);
    front + hold(setup, log, right, random)
}
