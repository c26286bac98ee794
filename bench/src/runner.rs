//! Times the exported runner against the same rules written for speed in Rust, in one process, and first compares their bytes. Then times the same
//! logs in fragments against a run, and claims to them.

mod baseline;
#[path = "../../compare/src/checker.rs"]
mod checker;
mod claims;
#[path = "../../compare/src/form.rs"]
mod form;
mod fragments;
#[path = "../../compare/src/hubcrackle.rs"]
mod hubcrackle;
mod logs;
#[path = "../../compare/src/random.rs"]
mod random;

use std::hint::black_box;
use std::time::Instant;

use baseline::{ANSWER_BYTES, OK, RECORD_BYTES};
use hubcrackle::hubcrackle_run;
use logs::{Controller, KINDS, Log, NARROW, RECORDS, WIDE};
use random::Random;

type Run = unsafe extern "C" fn(u8, *const u8, usize, *mut u8, usize) -> i32;

/// The proved runner, and the baseline.
const RUNS: [Run; 2] = [hubcrackle_run, baseline::run];

const SEED: u64 = 1;
const LOGS: usize = 32;
const ROUNDS: usize = 300;
/// What is written over the room before a run, and must stay past the last answer.
const FILL: u8 = 0x55;
const PAST: usize = 5;
/// The most that a log may take, as a ratio to the baseline: mixed, of one operation, of unwind, and empty.
struct Goals {
    mixed: f64,
    only: f64,
    unwind: f64,
    empty: f64,
}

const NARROW_GOALS: Goals = Goals { mixed: 1.2, only: 1.3, unwind: 1.3, empty: 2.0 };
const WIDE_GOALS: Goals = Goals { mixed: 1.5, only: 1.5, unwind: 1.5, empty: 2.0 };

/// The name of the row whose logs have every kind of record.
const MIXED: &str = "mixed";

/// A row: its name, after the width, its logs, by how much a run's time is divided, and the goal.
struct Row {
    width: &'static str,
    name: String,
    logs: Vec<Log>,
    count: usize,
    goal: f64,
}

impl Row {
    /// What is printed of it first.
    fn title(&self) -> String {
        format!("{}{}", self.width, self.name)
    }

    /// Whether its logs have every kind of record.
    fn is_mixed(&self) -> bool {
        self.name == MIXED
    }
}

fn run(call: Run, log: &Log, out: &mut [u8]) -> i32 {
    // SAFETY: both calls take two slices with their lengths.
    unsafe { call(log.setup, log.bytes.as_ptr(), log.bytes.len(), out.as_mut_ptr(), out.len()) }
}

/// Of the records of a kind: how many were accepted, how many there were, and to how many of the accepted the value is not 0.
#[derive(Clone, Copy, Default)]
struct Count {
    accepted: usize,
    all: usize,
    valued: usize,
}

type Counts = [Count; KINDS.len()];

/// Runs each log both ways, ends the process where a byte differs, and counts the accepted records.
fn compare(logs: &[Log]) -> Counts {
    let mut counts = Counts::default();
    for log in logs {
        let [ours, theirs] = RUNS.map(|call| {
            let mut out = vec![FILL; log.bytes.len() / RECORD_BYTES * ANSWER_BYTES + PAST];
            assert_eq!(run(call, log, &mut out), OK, "a log was refused");
            out
        });
        let differs = ours.chunks(ANSWER_BYTES).zip(theirs.chunks(ANSWER_BYTES)).position(|(ours, theirs)| ours != theirs);
        assert_eq!(differs, None, "the two answers to this record of a log differ");
        for (record, answer) in log.bytes.chunks_exact(RECORD_BYTES).zip(ours.chunks_exact(ANSWER_BYTES)) {
            let count = &mut counts[logs::kind_of(record)];
            let accepted = answer[..4] == OK.to_be_bytes();
            count.accepted += usize::from(accepted);
            count.all += 1;
            count.valued += usize::from(accepted && answer[4..] != [0; 4]);
        }
    }
    counts
}

/// The time of one run in ns, the best of many rounds over the logs, for each of the two.
fn times(logs: &[Log]) -> [f64; 2] {
    let mut out = vec![FILL; RECORDS * ANSWER_BYTES];
    let mut best = [f64::MAX; 2];
    for _ in 0..ROUNDS {
        for (best, call) in best.iter_mut().zip(RUNS) {
            let start = Instant::now();
            for log in logs {
                black_box(run(black_box(call), black_box(log), black_box(&mut out)));
            }
            *best = best.min(start.elapsed().as_secs_f64() * 1e9 / logs.len() as f64);
        }
    }
    best
}

/// Times the logs of a row, prints it, and says whether the goal is met.
fn print_row(row: &Row) -> bool {
    let (accepted, all) = compare(&row.logs).iter().fold((0, 0), |sum, of| (sum.0 + of.accepted, sum.1 + of.all));
    let [ours, theirs] = times(&row.logs).map(|time| time / row.count as f64);
    let (title, accepted, goal) = (row.title(), format!("{accepted}/{all}"), row.goal);
    println!("{title:<21} {accepted:>12} {ours:>10.2} {theirs:>10.2} {:>7.2} {goal:>5.1}", ours / theirs);
    ours / theirs <= goal
}

/// Prints how often each kind of record of mixed logs is accepted. The process ends if one never is, or if no unwind frees a lock.
fn print_accepted(width: &str, mixed: &[Log]) {
    print!("accepted in the {width}mixed logs:");
    for (name, Count { accepted, all, valued }) in KINDS.iter().zip(compare(mixed)) {
        assert!(accepted > 0, "{name} is never accepted: the logs do not keep it busy");
        print!(" {name} {accepted}/{all}");
        if *name == "unwind" {
            assert!(valued > 0, "no unwind frees a lock: the logs do not keep it busy");
            print!(", {valued} with locks held");
        }
    }
    println!();
}

/// The rows of a controller.
fn rows<const CPUS: usize>(controller: &Controller<CPUS>, width: &'static str, goals: &Goals, random: &mut Random) -> Vec<Row> {
    let mixed = (0..LOGS).map(|_| controller.mixed(random)).collect();
    let mut rows = Vec::new();
    let mut add = |name: &str, logs: Vec<Log>, count, goal| rows.push(Row { width, name: name.into(), logs, count, goal });
    for (kind, name) in KINDS.iter().enumerate() {
        let only = (0..LOGS).map(|_| controller.only(kind, random)).collect();
        let goal = if *name == "unwind" { goals.unwind } else { goals.only };
        add(&format!("{name} only"), only, RECORDS, goal);
    }
    add("unwind, running", vec![controller.unwind_running(); LOGS], RECORDS, goals.unwind);
    let held = (0..LOGS).map(|_| controller.held(random)).collect();
    add("acquire, held", held, RECORDS, goals.only);
    let repinned = (0..LOGS).map(|_| controller.repinned(random)).collect();
    add("mask, pin-only", repinned, RECORDS, goals.only);
    for (name, pinned) in [("ipi, one CPU", true), ("ipi, all CPUs", false)] {
        let logs = (0..LOGS).map(|_| controller.interrupts(pinned, random)).collect();
        add(name, logs, RECORDS, goals.only);
    }
    add(MIXED, mixed, RECORDS, goals.mixed);
    add("empty log", vec![controller.empty(); LOGS], 1, goals.empty);
    rows
}

/// The mixed logs among the rows of a controller.
fn mixed_of(rows: &[Row]) -> &[Log] {
    &rows.iter().find(|row| row.is_mixed()).expect("a row of mixed logs").logs
}

fn main() {
    let mut random = Random::new(SEED);
    let narrow = rows(&NARROW, "", &NARROW_GOALS, &mut random);
    let wide = rows(&WIDE, "wide: ", &WIDE_GOALS, &mut random);
    println!("{LOGS} logs of {RECORDS} records, best of {ROUNDS} rounds; ns a record, and of the empty log ns a run");
    println!("{:<21} {:>12} {:>10} {:>10} {:>7} {:>5}", "log", "accepted", "proved", "baseline", "ratio", "goal");
    let met: Vec<_> = narrow.iter().chain(&wide).map(print_row).collect();
    print_accepted("", mixed_of(&narrow));
    print_accepted("wide ", mixed_of(&wide));
    println!("{} of {} logs over their goal", met.iter().filter(|met| !**met).count(), met.len());
    fragments::print(mixed_of(&narrow), mixed_of(&wide));
    claims::print(&narrow, &wide);
}
