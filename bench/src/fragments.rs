//! Times logs in fragments against one run of each, and first compares their bytes; and the three calls on a form by themselves.

use std::hint::black_box;
use std::time::Instant;

use crate::baseline::{ANSWER_BYTES, OK, RECORD_BYTES};
use crate::form::Form;
use crate::hubcrackle::hubcrackle_run;
use crate::logs::{Log, RECORDS};
use crate::{FILL, LOGS, PAST, run};

const LOG_BYTES: usize = RECORDS * RECORD_BYTES;
/// The sizes of fragments, each with its rounds: few for small ones, since in single bytes a log takes as long as a thousand runs.
const SIZES: [(usize, usize); 5] = [(1, 2), (12, 10), (100, 40), (1_000, 150), (LOG_BYTES, 150)];
/// How often a call is made in a round, when it is timed by itself, and in how many rounds.
const CALLS: usize = 100;
const CALL_ROUNDS: usize = 2_000;

/// Runs each log whole and in fragments of every size, and ends the process where a byte differs.
fn compare(logs: &[Log], form: &mut Form) {
    for log in logs {
        let mut whole = vec![FILL; RECORDS * ANSWER_BYTES + PAST];
        assert_eq!(run(hubcrackle_run, log, &mut whole), OK, "a log was refused");
        for (size, _) in SIZES {
            let mut out = vec![FILL; RECORDS * ANSWER_BYTES + PAST];
            form.follow(log.setup, log.bytes.chunks(size), &mut out);
            assert!(out == whole, "the answers in fragments of {size} bytes are not those of the run");
        }
    }
}

/// Makes a call on each log, and keeps the log's best time in seconds.
fn time(logs: &[Log], best: &mut [f64], mut call: impl FnMut(&Log)) {
    for (log, best) in logs.iter().zip(best) {
        let start = Instant::now();
        call(black_box(log));
        *best = best.min(start.elapsed().as_secs_f64());
    }
}

/// The time of a byte in ns, by each log's best of the rounds: in fragments of a size, and in a run.
fn times(logs: &[Log], size: usize, rounds: usize, form: &mut Form) -> [f64; 2] {
    let mut out = vec![FILL; RECORDS * ANSWER_BYTES];
    let mut best = [vec![f64::MAX; logs.len()], vec![f64::MAX; logs.len()]];
    for _ in 0..rounds {
        time(logs, &mut best[0], |log| {
            black_box(form.follow(log.setup, log.bytes.chunks(black_box(size)), black_box(&mut out)));
        });
        time(logs, &mut best[1], |log| {
            black_box(run(black_box(hubcrackle_run), log, black_box(&mut out)));
        });
    }
    best.map(|best| best.iter().sum::<f64>() * 1e9 / (logs.len() * LOG_BYTES) as f64)
}

/// The rows of some logs, each name after the width.
fn rows(width: &str, logs: &[Log]) {
    let mut form = Form::new();
    compare(logs, &mut form);
    for (size, rounds) in SIZES {
        let [fragments, whole] = times(logs, size, rounds, &mut form);
        let name = format!("{width}fragments of {size}");
        println!("{name:<26} {rounds:>7} {fragments:>10.2} {whole:>10.2} {:>8.2}", fragments / whole);
    }
}

/// The best time of a call in ns.
fn call_time(mut call: impl FnMut() -> i32) -> f64 {
    let mut best = f64::MAX;
    for _ in 0..CALL_ROUNDS {
        let start = Instant::now();
        for _ in 0..CALLS {
            assert_eq!(call(), OK, "a call was refused");
        }
        best = best.min(start.elapsed().as_secs_f64() * 1e9 / CALLS as f64);
    }
    best
}

/// The rows of the three calls by themselves, each name after the width: feed and finish on the form that has been fed this log, where nothing is
/// pending.
fn call_rows(width: &str, log: &Log) {
    let (mut form, mut out, mut records) = (Form::new(), vec![FILL; RECORDS * ANSWER_BYTES], 0);
    let start = call_time(|| black_box(&mut form).start(black_box(log.setup)));
    form.follow(log.setup, [&log.bytes[..]].into_iter(), &mut out);
    let feed = call_time(|| black_box(&mut form).feed(black_box(&[]), black_box(&mut out), black_box(&mut records)));
    let finish = call_time(|| black_box(&form).finish());
    for (name, time) in [("start", start), ("feed, empty fragment", feed), ("finish", finish)] {
        let name = format!("{width}{name}");
        println!("{name:<26} {time:>10.1}");
    }
}

/// The two tables, of the mixed logs of either width.
pub fn print(narrow: &[Log], wide: &[Log]) {
    println!("{LOGS} mixed logs of {LOG_BYTES} bytes, in fragments from start to finish and in one run, each log's best of the rounds; ns a byte");
    println!("{:<26} {:>7} {:>10} {:>10} {:>8}", "log", "rounds", "fragments", "run", "ratio");
    rows("", narrow);
    rows("wide: ", wide);
    println!("calls on a form, {CALLS} a round, best of {CALL_ROUNDS} rounds; ns a call");
    println!("{:<26} {:>10}", "call", "proved");
    call_rows("", &narrow[0]);
    call_rows("wide: ", &wide[0]);
}
