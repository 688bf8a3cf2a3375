//! Prints a fixed list of calls with the reference's answers and changes, in the format of
//! crates/replay/README.md, and on stderr what the list meets. Fails where it meets too little.

mod choice;
mod coverage;
mod format;
mod lists;
mod run;
mod stays;
mod wanted;

use choice::chosen;
use coverage::Coverage;
use run::Run;
use std::process::exit;
use wanted::wanted;

/// What the list may have of calls and of bytes.
const CALLS: std::ops::RangeInclusive<usize> = 300..=600;
const BYTES: usize = 700_000;

fn main() {
    let mut run = Run::new();
    for list in chosen() {
        run.list(&list.events);
        eprintln!("{:6} lines after {}", run.lines.len(), list.name);
    }
    let text = run.text();
    table(&run.coverage, run.lines.len(), text.len());
    let mut missing = run.coverage.missing();
    if !CALLS.contains(&run.coverage.calls) {
        missing.push(format!("{CALLS:?} calls"));
    }
    if text.len() >= BYTES {
        missing.push(format!("fewer than {BYTES} bytes"));
    }
    for name in &missing {
        eprintln!("missing: {name}");
    }
    if !missing.is_empty() {
        exit(1);
    }
    print!("{text}");
}

fn table(coverage: &Coverage, lines: usize, bytes: usize) {
    for name in wanted() {
        eprintln!("{:6} {name}", coverage.met.get(&name).unwrap_or(&0));
    }
    eprintln!("{:6} strands laid", coverage.strands);
    eprintln!(
        "{:6} of them curved, of 3 vertices or more",
        coverage.curved
    );
    eprintln!(
        "{:6} of them without a power of two among their stiffnesses",
        coverage.uneven
    );
    eprintln!(
        "{:6} calls in {lines} lines and {bytes} bytes",
        coverage.calls
    );
}
