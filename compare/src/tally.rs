//! How many calls were made, of which kind, and how many met each expected difference.

use crate::differences::{Difference, ROWS};

/// What a call's answer was held to.
#[derive(Clone, Copy)]
pub enum Kind {
    Compared,
    Excluded,
    Boundary,
    Decoded,
    Wide,
    Claimed,
    Repeated,
}

/// What is printed of each kind.
const KINDS: [&str; 7] = [
    "upstream's body ran, and both answers were compared",
    "refused, where upstream's `requires` excludes the call",
    "refused by the C boundary's own tests of flags and CPU bytes",
    "decodings, for which upstream has no body",
    "wide tags, which upstream does not have, by the account in compare/src/wide.rs",
    "claimed answers, which upstream does not judge, by the account in compare/src/claims.rs",
    "repeats with room for the value alone, for one byte less, or for nothing",
];

#[derive(Default)]
pub struct Tally {
    pub calls: u64,
    kinds: [u64; KINDS.len()],
    met: [u64; ROWS.len()],
}

impl Tally {
    pub fn count(&mut self, kind: Kind) {
        self.add(kind, 1);
    }

    /// Counts so many calls of a kind.
    pub fn add(&mut self, kind: Kind, calls: u64) {
        self.calls += calls;
        self.kinds[kind as usize] += calls;
    }

    pub fn meet(&mut self, difference: Difference) {
        self.met[difference as usize] += 1;
    }

    /// Prints all of it. Every difference of the list must have been met.
    pub fn print(&self) {
        println!("{:>10}  calls in all", self.calls);
        for (count, kind) in self.kinds.iter().zip(KINDS) {
            println!("{count:>10}  {kind}");
        }
        println!("differences, the list of docs/DIFFERENCES.md, and how many calls met each:");
        for (&count, [place, _, here, _]) in self.met.iter().zip(ROWS) {
            println!("{count:>10}  {place}: {here}");
            assert!(count > 0, "no call met this difference");
        }
    }
}
