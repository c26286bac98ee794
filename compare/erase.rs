//! erase FROM TO: upstream's five files without their Verus text, as a crate of plain Rust in TO.
//!
//! Left out are `verus!`, the import of its library, specification and proof functions, and the clauses of functions and loops; the name of a
//! result is dropped from its type. Bodies stay as they are. It goes by the layout of the five files: the brace that opens a body after clauses
//! stands on a line of its own. A body must have no proof block and no assert; one that has is an error.

use std::path::{Path, PathBuf};
use std::{env, fs, process};

const FILES: [&str; 5] = ["error", "spinlock_validate", "spinlock", "cpu_mask", "ipi"];

const CLAUSES: [&str; 5] = ["requires", "ensures", "recommends", "invariant", "decreases"];

fn fail(message: String) -> ! {
    eprintln!("erase: {message}");
    process::exit(1)
}

/// Where a file stands: in the folder, in its src/, or in the folder under a name with its path.
fn find(from: &Path, name: &str) -> PathBuf {
    let places = [format!("{name}.rs"), format!("src/{name}.rs"), format!("src--src--{name}.rs.txt")];
    match places.iter().map(|place| from.join(place)).find(|path| path.exists()) {
        Some(path) => path,
        None => fail(format!("{} has none of {}", from.display(), places.join(", "))),
    }
}

fn starts_clause(line: &str) -> bool {
    CLAUSES.iter().any(|clause| line.trim_start().strip_prefix(clause).is_some_and(|rest| !rest.starts_with(|c: char| c.is_alphanumeric())))
}

fn is_ghost(line: &str) -> bool {
    ["pub open spec fn", "pub closed spec fn", "pub proof fn", "spec fn", "proof fn"].iter().any(|head| line.trim_start().starts_with(head))
}

fn is_proof(line: &str) -> bool {
    ["proof {", "assert(", "assert forall", "assume("].iter().any(|head| line.trim_start().starts_with(head))
}

/// How far the braces of a line open, without those in a comment.
fn opened(line: &str) -> i32 {
    let code = line.split("//").next().unwrap_or("");
    code.matches('{').count() as i32 - code.matches('}').count() as i32
}

/// The number of lines of a specification or proof function that starts here.
fn ghost_lines(lines: &[&str]) -> usize {
    let body = lines.iter().position(|line| line.trim() == "{" || (is_ghost(line) && line.trim_end().ends_with('{')));
    let Some(start) = body else { fail("a specification function has no body".into()) };
    let mut depth = 0;
    for (at, line) in lines.iter().enumerate().skip(start) {
        depth += opened(line);
        if depth == 0 {
            return at + 1;
        }
    }
    fail("a specification function does not end".into())
}

fn is_comment(line: &str) -> bool {
    line.trim_start().starts_with("//")
}

/// `-> (name: Type)` becomes `-> Type`.
fn unnamed(line: &str) -> String {
    match line.split_once("-> (") {
        Some((head, tail)) if !is_comment(line) && tail.trim_end().ends_with(')') => {
            let tail = tail.trim_end();
            let (_, ty) = tail[..tail.len() - 1].split_once(": ").unwrap_or_else(|| fail(format!("an unknown result: {line}")));
            format!("{head}-> {ty}")
        }
        _ => line.to_string(),
    }
}

fn erased(text: &str) -> String {
    let lines: Vec<&str> = text.lines().collect();
    let mut kept: Vec<String> = Vec::new();
    let mut at = 0;
    while at < lines.len() {
        let line = lines[at];
        if line.starts_with("verus!") || line.starts_with("} // verus!") || line.starts_with("use vstd::") {
            at += 1;
        } else if is_ghost(line) {
            // Its documentation goes with it.
            while kept.last().is_some_and(|above| above.trim_start().starts_with("///")) {
                kept.pop();
            }
            at += ghost_lines(&lines[at..]);
        } else if starts_clause(line) {
            while lines[at].trim() != "{" {
                at += 1;
            }
        } else if is_proof(line) {
            fail(format!("line {} is a proof in a body: {}", at + 1, line.trim()))
        } else {
            kept.push(unnamed(line));
            at += 1;
        }
    }
    kept.join("\n") + "\n"
}

fn main() {
    let [from, to] = env::args().skip(1).collect::<Vec<_>>().try_into().unwrap_or_else(|_| fail("two folders, please".into()));
    let to = Path::new(&to);
    let mut root = String::new();
    for name in FILES {
        let path = find(Path::new(&from), name);
        let text = fs::read_to_string(&path).unwrap_or_else(|e| fail(format!("{}: {e}", path.display())));
        fs::write(to.join(format!("{name}.rs")), erased(&text)).unwrap_or_else(|e| fail(e.to_string()));
        root += &format!("pub mod {name};\n");
    }
    fs::write(to.join("lib.rs"), root).unwrap_or_else(|e| fail(e.to_string()));
}
