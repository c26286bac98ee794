//! Compares the exported calls with upstream's bodies, their Verus text erased, on the same inputs, and the owner word with a wide tag and the
//! checker of claimed answers, of which upstream has nothing, with a plain account of each. It stops at the first difference that is not in the list
//! of differences.rs, which docs/DIFFERENCES.md has too.

mod checker;
mod claims;
mod differences;
mod form;
mod hubcrackle;
mod interrupt;
mod lock;
mod mask;
mod ours;
mod owner;
mod random;
mod sample;
mod stored;
mod tally;
mod wide;

use ours::Judge;
use random::Random;
use sample::Sample;
use tally::{Kind, Tally};

const SEED: u64 = 1;
const LEAST_CALLS: u64 = 10_000_000;

/// A part of the comparison: adds its calls to the judge's.
type Part = fn(&mut Judge, &mut Random);

const EXPORTED: [(&str, Part); 4] = [
    ("owner word", owner::compare),
    ("masks and pins", mask::compare),
    ("interrupts", interrupt::compare),
    ("owner word with a wide tag", wide::compare),
];

/// Prints how many calls a part has made, and gives the count so far.
fn told(part: &str, tally: &Tally, before: u64) -> u64 {
    println!("{part}: {} calls, no difference but those of the list", tally.calls - before);
    tally.calls
}

fn main() {
    differences::hold_to_document();
    let sample = std::env::args().nth(1).map(|path| Sample::new(path.into()));
    let mut random = Random::new(SEED);
    let mut judge = Judge::new(sample);
    let mut before = 0;
    for (part, compare) in EXPORTED {
        judge.begin();
        compare(&mut judge, &mut random);
        before = told(part, &judge.tally, before);
    }
    let mut tally = judge.finish();
    let besides = lock::compare(&mut tally, &mut random);
    before = told("lock records, through the runner", &tally, before);
    println!("the same logs in {} fragments: the same answers", besides.fragments);
    tally.add(Kind::Claimed, besides.claims as u64);
    before = told("claimed answers to the same logs, by the checker", &tally, before);
    stored::compare(&mut tally);
    told("lock records, the stored lines of single_calls", &tally, before);
    tally.print();
    assert!(tally.calls >= LEAST_CALLS, "fewer calls than the comparison promises");
}
