//! The differences that the comparison expects, and no others. docs/DIFFERENCES.md has the same list, in the same order and words, and
//! `hold_to_document` ends the comparison where the two differ.

use std::process;

const DOCUMENT: &str = include_str!("../../docs/DIFFERENCES.md");
const HEADING: &str = "## In behaviour, and met by the comparison";

/// A difference, by its row in `ROWS`.
#[derive(Clone, Copy)]
pub enum Difference {
    ComputeOwner,
    DecodeOwner,
    LockValid,
    UnlockValid,
    Width,
    WidthFlag,
    InvalidRecord,
    ReleaseCheck,
    SelfDeadlock,
    MaskFlags,
    RefusedMask,
    IpiNumbers,
    CpuLength,
    ActiveFlag,
    IpiTest,
    Room,
}

/// Where it is, what upstream does, what is done here, and why.
pub const ROWS: [[&str; 4]; 16] = [
    [
        "spin_lock_compute_owner",
        "requires a CPU below 4 and a thread word that is nonzero and aligned",
        "EINVAL, word 0",
        "each `requires` becomes a refusal",
    ],
    [
        "spin_lock_decode_owner",
        "no body: two specification functions, total on all words",
        "a call with a code: word 0 is free, words 1 to 3 are EINVAL",
        "01 asks for a decoder",
    ],
    ["spin_lock_valid", "requires a CPU below 4", "EINVAL, no", "each `requires` becomes a refusal"],
    ["spin_unlock_valid", "requires a CPU below 4 and a thread word that is nonzero and aligned", "EINVAL, no", "each `requires` becomes a refusal"],
    [
        "the four calls on owner words",
        "a tag of two bits",
        "a width: two bits, or four, where a CPU is below 16, a thread word is a multiple of 16 and words 1 to 15 are EINVAL",
        "02 asks for sixteen CPUs",
    ],
    ["the four calls on owner words, exported", "no width", "EINVAL if `wide` is neither 0 nor 1", "flags cross the C boundary as numbers"],
    [
        "every call on a lock record",
        "requires a valid record",
        "EINVAL, in the calls that only read too; the record stays as it was, and the readers have 0, none or no",
        "each `requires` becomes a refusal",
    ],
    ["release_check", "named in the header, in no file", "yes exactly if the thread owns the record, as is_owner", "01 supplies it"],
    [
        "a plain acquire in a log, and acquire_again",
        "EBUSY on every held lock",
        "EDEADLK on one that the asking CPU itself holds; acquire, by value and in place, does as upstream's",
        "02 tells a self-deadlock from contention",
    ],
    ["cpu_mask_mod, exported", "two flags of type `bool`", "EINVAL if a flag is neither 0 nor 1", "flags cross the C boundary as numbers"],
    [
        "cpu_mask_mod, exported",
        "a refusal hands back the current mask",
        "a refusal leaves the room as it was; the rule has the current mask",
        "an exported call has a value on OK only",
    ],
    [
        "compute_ipi_mask",
        "requires num_cpus <= max_cpus <= 16, current_cpu < num_cpus, and two slices of num_cpus elements",
        "EINVAL, mask 0, exactly if max_cpus > 16, num_cpus > max_cpus or current_cpu >= num_cpus",
        "each `requires` becomes a refusal; the clauses on lengths vanish with the slices",
    ],
    [
        "compute_ipi_mask, exported",
        "two slices of num_cpus elements",
        "EINVAL if the CPU bytes are not 5 times num_cpus",
        "CPUs cross the C boundary as five bytes each",
    ],
    ["compute_ipi_mask, exported", "active flags of type `bool`", "EINVAL if an active byte is neither 0 nor 1", "the same"],
    ["validate_ipi_mask", "requires current_cpu < max_cpus <= 16", "EINVAL, no", "each `requires` becomes a refusal"],
    [
        "every exported call",
        "hands its value back",
        "the value stands in lent room; ENOMEM, tested last, if the room is too short",
        "a C kernel lends the room",
    ],
];

/// Ends the process unless the document's table has these rows.
pub fn hold_to_document() {
    let section = DOCUMENT.lines().skip_while(|line| *line != HEADING).skip(1).take_while(|line| !line.starts_with("## "));
    let listed: Vec<&str> = section.filter(|line| line.starts_with("| ")).skip(1).collect();
    let expected = ROWS.map(|row| format!("| {} |", row.join(" | ")));
    if listed != expected {
        eprintln!("docs/DIFFERENCES.md, \"{HEADING}\", does not have the rows of compare/src/differences.rs:");
        expected.iter().filter(|row| !listed.contains(&row.as_str())).for_each(|row| eprintln!("not in the document: {row}"));
        process::exit(1);
    }
}
