//! The calls on one lock record, which are not exported: every line that the program `single_calls` has of them, against upstream's bodies. The
//! lines are its stored output, to which the gate holds it. A line has the call, the record, the thread and the flag if there are any, and the answer, where a
//! record is shown with owner, depth and irq flag.

use std::collections::BTreeSet;
use std::process;

use upstream::error;
use upstream::spinlock::{MAX_NEST_DEPTH, SpinlockState};

use crate::differences::Difference;
use crate::tally::{Kind, Tally};

const LINES: &str = include_str!("../../crates/single_calls/stdout");

const CALLS: [&str; 11] =
    ["new", "acquire", "acquire_again", "release", "acquire_check", "release_check", "is_owner", "is_held", "is_free", "nest_depth", "owner_get"];

/// The number after a word; none if the word is not there, or if "none" follows it.
fn number(words: &[&str], name: &str) -> Option<u32> {
    let at = words.iter().position(|word| *word == name)?;
    words.get(at + 1)?.parse().ok()
}

fn shown_owner(owner: Option<u32>) -> String {
    owner.map_or("owner none".into(), |owner| format!("owner {owner}"))
}

fn shown(lock: &SpinlockState) -> String {
    format!("{} depth {} irq {}", shown_owner(lock.owner), lock.nest_count, u8::from(lock.irq_saved))
}

fn code_name(code: i32) -> &'static str {
    match code {
        error::OK => "OK",
        error::EBUSY => "EBUSY",
        error::EDEADLK => "EDEADLK",
        error::EPERM => "EPERM",
        _ => panic!("no call on a lock record has the code {code}"),
    }
}

/// Upstream's `requires`.
fn is_valid(lock: &SpinlockState) -> bool {
    lock.owner.is_some() == (lock.nest_count > 0) && lock.nest_count <= MAX_NEST_DEPTH && (lock.owner.is_some() || !lock.irq_saved)
}

/// What upstream's body answers. It has a body for each kind of acquire.
fn answered(call: &str, mut lock: SpinlockState, thread: u32, nested: bool) -> String {
    let yes_no = |yes| if yes { "OK yes".into() } else { "OK no".into() };
    let changed = |code, lock| format!("{} {}", code_name(code), shown(lock));
    match call {
        "new" => shown(&SpinlockState::init()),
        "acquire" if nested => changed(lock.acquire_nested(thread), &lock),
        "acquire" => changed(lock.acquire(thread), &lock),
        // Of an acquire again upstream's body says all but that the CPU itself holds the lock.
        "acquire_again" => match lock.acquire(thread) {
            error::EBUSY => changed(error::EDEADLK, &lock),
            code => changed(code, &lock),
        },
        "release" => changed(lock.release(thread), &lock),
        "acquire_check" => yes_no(lock.acquire_check(thread)),
        "is_owner" | "release_check" => yes_no(lock.is_owner(thread)),
        "is_held" => yes_no(lock.is_held()),
        "is_free" => yes_no(lock.is_free()),
        "nest_depth" => format!("OK depth {}", lock.nest_depth()),
        _ => format!("OK {}", shown_owner(lock.owner_get())),
    }
}

/// What a call on an invalid record is answered.
fn refused(call: &str, lock: &SpinlockState) -> String {
    match call {
        "acquire" | "acquire_again" | "release" => format!("EINVAL {}", shown(lock)),
        "nest_depth" => "EINVAL depth 0".into(),
        "owner_get" => "EINVAL owner none".into(),
        _ => "EINVAL no".into(),
    }
}

pub fn compare(tally: &mut Tally) {
    let mut seen = BTreeSet::new();
    for line in LINES.lines() {
        let Some((asked, given)) = line.split_once(": ") else { continue };
        let words: Vec<&str> = asked.split(' ').collect();
        let call = words[0];
        if !CALLS.contains(&call) {
            continue;
        }
        let [owner, depth, irq, thread, nested] = ["owner", "depth", "irq", "thread", "nested"].map(|name| number(&words, name));
        let lock = SpinlockState { owner, nest_count: depth.unwrap_or(0), irq_saved: irq == Some(1) };
        let (kind, expected) = if is_valid(&lock) {
            (Kind::Compared, answered(call, lock, thread.unwrap_or(0), nested == Some(1)))
        } else {
            tally.meet(Difference::InvalidRecord);
            (Kind::Excluded, refused(call, &lock))
        };
        if given != expected {
            eprintln!("crates/single_calls/stdout has \"{line}\"; expected {expected}");
            process::exit(1);
        }
        tally.count(kind);
        match call {
            "release_check" => tally.meet(Difference::ReleaseCheck),
            "acquire_again" if expected.starts_with("EDEADLK") => tally.meet(Difference::SelfDeadlock),
            _ => {}
        }
        seen.insert((call, nested));
    }
    assert_eq!(seen.len(), CALLS.len() + 1, "a call on a lock record, or one of the two acquires, has no line");
}
