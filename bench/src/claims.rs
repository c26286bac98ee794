//! Times the checker on claims to the logs of the runner's table against a run of each log, and first holds its verdicts.

use std::hint::black_box;
use std::time::Instant;

use crate::baseline::{ANSWER_BYTES, OK, RECORD_BYTES};
use crate::checker::{Verdict, check};
use crate::hubcrackle::hubcrackle_run;
use crate::logs::{Log, RECORDS};
use crate::{FILL, LOGS, Row, run};

const ROUNDS: usize = 150;
/// The most that the right claim to a mixed log may take, as a ratio to a run of the log.
const MIXED_GOAL: f64 = 1.2;
/// The worked log of 01, as the program replay reads it: a setup byte, and the records.
const WORKED: &[u8] = include_bytes!("../../crates/replay/stdin");

/// A claim to a log, and what the checker has to say of it.
struct Claim<'a> {
    log: &'a Log,
    answers: Vec<u8>,
    verdict: Verdict,
}

impl<'a> Claim<'a> {
    /// What a run of the log answers.
    fn right(log: &'a Log) -> Claim<'a> {
        let mut answers = vec![FILL; log.bytes.len() / RECORD_BYTES * ANSWER_BYTES];
        assert_eq!(run(hubcrackle_run, log, &mut answers), OK, "a log was refused");
        Claim { log, answers, verdict: Verdict::RIGHT }
    }

    /// The same, but for the answer to one record.
    fn wrong(log: &'a Log, record: usize) -> Claim<'a> {
        let mut claim = Claim::right(log);
        claim.answers[record * ANSWER_BYTES] ^= 1;
        Claim { verdict: Verdict::differs(record), ..claim }
    }

    /// What the checker says.
    fn check(&self) -> Verdict {
        check(self.log.setup, &self.log.bytes, &self.answers)
    }

    /// Ends the process where the verdict is another.
    fn hold(&self) {
        assert_eq!(self.check(), self.verdict, "the checker's verdict is another than the claim's");
    }
}

/// Holds three claims to each log: the right one, and those that are wrong in the first answer and in the last.
fn compare(logs: &[Log]) {
    for log in logs {
        Claim::right(log).hold();
        if !log.bytes.is_empty() {
            Claim::wrong(log, 0).hold();
            Claim::wrong(log, log.bytes.len() / RECORD_BYTES - 1).hold();
        }
    }
}

/// Makes a call on each claim; how long one takes in ns.
fn time(claims: &[Claim], mut call: impl FnMut(&Claim)) -> f64 {
    let start = Instant::now();
    for claim in claims {
        call(black_box(claim));
    }
    start.elapsed().as_secs_f64() * 1e9 / claims.len() as f64
}

/// The time of one call in ns, the best of many rounds over the claims: of the checker, and of a run.
fn times(claims: &[Claim]) -> [f64; 2] {
    let mut out = vec![FILL; RECORDS * ANSWER_BYTES];
    let mut best = [f64::MAX; 2];
    for _ in 0..ROUNDS {
        let checked = time(claims, |claim| {
            black_box(claim.check());
        });
        let ran = time(claims, |claim| {
            black_box(run(black_box(hubcrackle_run), claim.log, black_box(&mut out)));
        });
        best = [best[0].min(checked), best[1].min(ran)];
    }
    best
}

/// Times claims, prints a row, and says whether the goal is met, if there is one. `count` is by how much a call's time is divided.
fn row(name: &str, claims: &[Claim], count: usize, goal: Option<f64>) -> Option<bool> {
    let [check, run] = times(claims).map(|time| time / count as f64);
    let shown = goal.map_or(String::new(), |goal| format!(" {goal:>5.1}"));
    println!("{name:<24} {check:>10.2} {run:>10.2} {:>7.2}{shown}", check / run);
    goal.map(|goal| check / run <= goal)
}

/// The rows of a controller: right claims to the logs of each row of the runner's table, and claims to the mixed logs that are wrong at once.
fn rows(table: &[Row]) -> Vec<bool> {
    let mut met = Vec::new();
    for of in table {
        compare(&of.logs);
        let right: Vec<_> = of.logs.iter().map(Claim::right).collect();
        met.extend(row(&of.title(), &right, of.count, of.is_mixed().then_some(MIXED_GOAL)));
        if of.is_mixed() {
            let wrong: Vec<_> = of.logs.iter().map(|log| Claim::wrong(log, 0)).collect();
            met.extend(row(&format!("{}, first wrong", of.title()), &wrong, 1, None));
        }
    }
    met
}

/// The table, of the rows of either width.
pub fn print(narrow: &[Row], wide: &[Row]) {
    println!(
        "claims to the same logs, by the checker and in a run, best of {ROUNDS} rounds; ns a record, of empty, first wrong and worked ns a call"
    );
    println!("{:<24} {:>10} {:>10} {:>7} {:>5}", "log", "check", "run", "ratio", "goal");
    let mut met = rows(narrow);
    met.extend(rows(wide));
    let worked = vec![Log { setup: WORKED[0], bytes: WORKED[1..].to_vec() }; LOGS];
    compare(&worked);
    let right: Vec<_> = worked.iter().map(Claim::right).collect();
    row(&format!("worked log, {} records", (WORKED.len() - 1) / RECORD_BYTES), &right, 1, None);
    println!("{} of {} claims over their goal", met.iter().filter(|met| !**met).count(), met.len());
}
