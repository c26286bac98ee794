//! The lock record, through the runner: the lock of a record is upstream's, as long as every thread stays on its CPU. Each log is run whole, and once
//! more in fragments, and claims to it are checked.
//!
//! After each call on a lock the log asks for the lock's owner word, so that code, depth and owner are compared. The irq flag is in no answer: on a
//! well-formed machine, as every step keeps it, it is set exactly while the lock is held. Upstream's flag is held to that.

use upstream::error::{EBUSY, EDEADLK};
use upstream::spinlock::{MAX_NEST_DEPTH, SpinlockState};
use upstream::spinlock_validate::spin_lock_compute_owner;

use crate::claims;
use crate::differences::Difference;
use crate::form::Form;
use crate::ours::{self, OK};
use crate::random::Random;
use crate::tally::{Kind, Tally};

const SETUP: u8 = 0x40;
const CPUS: u64 = 4;
const LOCKS: u64 = 3;
const LOGS: usize = 1_500;
const RECORDS: usize = 2_048;
const RECORD_BYTES: usize = 12;
const ANSWER_BYTES: usize = 8;
/// Where A's last byte stands in a record: of an acquire whether it is nested.
const FLAG_AT: usize = 7;

/// The cuts and the claims are of seeds of their own, so that they change no log.
const CUTS_SEED: u64 = 2;
const CLAIMS_SEED: u64 = 3;
/// What the fragments of a log are shorter than: about a record, some records, or all of them.
const SHORTER: [u64; 4] = [14, 200, 3_000, 24_577];

const UP: u8 = 0;
const PUT: u8 = 2;
const ACQUIRE: u8 = 4;
const RELEASE: u8 = 6;
const OWNER: u8 = 11;

/// Up, and thread 7 c + 1 put on CPU c.
const OPENING: usize = 2 * CPUS as usize;
const APART: u32 = 7;

fn thread_of(cpu: u8) -> u32 {
    APART * u32::from(cpu) + 1
}

/// The owner word by upstream's encoding: thread t has thread word 4 (t + 1).
fn word_of(owner: Option<u32>) -> u32 {
    owner.map_or(0, |thread| spin_lock_compute_owner(thread / APART, 4 * (thread as usize + 1)) as u32)
}

/// A log, and the answers that upstream's bodies give it.
struct Log {
    records: Vec<u8>,
    answers: Vec<u8>,
}

impl Log {
    fn add(&mut self, op: u8, cpu: u8, thread: u32, lock: u8, code: i32, value: u32) {
        let mut bytes = [0; RECORD_BYTES];
        bytes[..3].copy_from_slice(&[op << 4 | cpu, thread as u8, lock]);
        self.records.extend(bytes);
        self.answers.extend(code.to_be_bytes());
        self.answers.extend(value.to_be_bytes());
    }

    /// The last record has its flag set.
    fn set_flag(&mut self) {
        let last = self.records.len() - RECORD_BYTES;
        self.records[last + FLAG_AT] = 1;
    }

    /// Every CPU with its thread.
    fn opened() -> Log {
        let mut log = Log { records: vec![], answers: vec![] };
        for cpu in 0..CPUS as u8 {
            log.add(UP, cpu, 0, 0, OK, 0);
            log.add(PUT, cpu, thread_of(cpu), 0, OK, 0);
        }
        log
    }

    /// Ends the process at the first answer that differs.
    fn hold(&self, room: &[u8]) {
        let differs = room.chunks(ANSWER_BYTES).zip(self.answers.chunks(ANSWER_BYTES)).position(|(a, b)| a != b);
        if let Some(at) = differs {
            let bytes = at * ANSWER_BYTES..(at + 1) * ANSWER_BYTES;
            let asked = &self.records[at * RECORD_BYTES..][..RECORD_BYTES];
            eprintln!("record {at} ({asked:x?}): answer {:x?}; expected {:x?}", &room[bytes.clone()], &self.answers[bytes]);
            std::process::exit(1);
        }
    }

    /// Runs it whole.
    fn hold_run(&self) {
        let mut room = vec![0; RECORDS * ANSWER_BYTES];
        assert_eq!(ours::run(SETUP, &self.records, &mut room), OK, "a log was refused");
        self.hold(&room);
    }

    /// Feeds it to a form in fragments; how many there were.
    fn hold_fragments(&self, cuts: &mut Random) -> usize {
        let mut room = vec![0; RECORDS * ANSWER_BYTES];
        let fragments = cut(&self.records, cuts);
        let answered = Form::new().follow(SETUP, fragments.iter().copied(), &mut room);
        assert_eq!(answered, self.answers.len(), "the fragments of a log have not all of its answers");
        self.hold(&room);
        fragments.len()
    }
}

/// Bytes in fragments, cut at random.
fn cut<'a>(mut bytes: &'a [u8], cuts: &mut Random) -> Vec<&'a [u8]> {
    let shorter = SHORTER[cuts.below(SHORTER.len() as u64) as usize];
    let mut fragments = vec![];
    while !bytes.is_empty() {
        let (fragment, left) = bytes.split_at(bytes.len().min(cuts.below(shorter) as usize));
        fragments.push(fragment);
        bytes = left;
    }
    fragments
}

/// What a log answers where upstream answers EBUSY to the thread that holds the lock.
fn told_apart(tally: &mut Tally, code: i32) -> i32 {
    assert_eq!(code, EBUSY, "upstream's plain acquire of a held lock is not EBUSY");
    tally.meet(Difference::SelfDeadlock);
    EDEADLK
}

/// A log, with the answers of one of upstream's records a lock, and how often it asks for a nested acquire at the greatest depth.
fn made(tally: &mut Tally, random: &mut Random) -> (Log, u64) {
    let mut log = Log::opened();
    let mut states = [SpinlockState::init(); LOCKS as usize];
    // Half of the logs keep to one CPU and one lock, so that the greatest depth is reached and passed.
    let (spread, releases) = (if random.below(2) == 0 { 1 } else { 8 }, 1 + random.below(4));
    let mut full = 0;
    for _ in 0..(RECORDS - OPENING) / 2 {
        let alone = random.below(spread) != 0;
        let (cpu, lock) = if alone { (1, 0) } else { (random.below(CPUS) as u8, random.below(LOCKS) as u8) };
        let thread = thread_of(cpu);
        let state = &mut states[usize::from(lock)];
        match random.below(8) {
            0 => {
                let own = state.is_owner(thread);
                let code = state.acquire(thread);
                log.add(ACQUIRE, cpu, 0, lock, if own { told_apart(tally, code) } else { code }, state.nest_depth());
            }
            share if share <= releases => {
                let code = state.release(thread);
                log.add(RELEASE, cpu, 0, lock, code, state.nest_depth());
            }
            _ => {
                full += u64::from(state.is_owner(thread) && state.nest_depth() == MAX_NEST_DEPTH);
                let code = state.acquire_nested(thread);
                log.add(ACQUIRE, cpu, 0, lock, code, state.nest_depth());
                log.set_flag();
            }
        }
        log.add(OWNER, 0, 0, lock, OK, word_of(state.owner_get()));
        assert_eq!(state.irq_saved, state.nest_depth() > 0, "upstream's irq flag is not set exactly while the lock is held");
        tally.count(Kind::Compared);
        tally.count(Kind::Compared);
    }
    (log, full)
}

/// What is done with the logs besides: in how many fragments they were fed, and how many claims to them were checked.
#[derive(Default)]
pub struct Besides {
    pub fragments: usize,
    pub claims: usize,
}

/// Holds every log, whole, in fragments and by claims; how many of these there were, which the tally does not count yet.
pub fn compare(tally: &mut Tally, random: &mut Random) -> Besides {
    let (mut cuts, mut claimed) = (Random::new(CUTS_SEED), Random::new(CLAIMS_SEED));
    let (mut besides, mut deepest) = (Besides::default(), 0);
    for _ in 0..LOGS {
        let (log, full) = made(tally, random);
        log.hold_run();
        besides.fragments += log.hold_fragments(&mut cuts);
        besides.claims += claims::compare(SETUP, &log.records, &log.answers, &mut claimed);
        deepest += full;
    }
    assert!(deepest > 0, "no log reaches the greatest depth");
    besides
}
