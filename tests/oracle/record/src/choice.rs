//! Which lists are taken: greedily, those that meet most of what is still missing for their length,
//! then more until there are calls enough.

use crate::lists::{lists, List};
use crate::run::Run;
use crate::wanted::wanted;
use std::collections::BTreeSet;

/// A list, its bytes when it is run alone, and what it meets.
struct Candidate {
    list: List,
    bytes: usize,
    calls: usize,
    met: BTreeSet<String>,
}

/// The calls that there are to be at least; members who leave for the next list make some more.
const CALLS: usize = 480;

/// The bytes of the longest list that is taken for its calls alone.
const LONGEST: usize = 30_000;

pub fn chosen() -> Vec<List> {
    let wanted: BTreeSet<String> = wanted().into_iter().collect();
    let mut candidates: Vec<Candidate> = lists().into_iter().map(|l| tried(l, &wanted)).collect();
    let mut missing = wanted;
    let mut taken = vec![];
    while let Some(best) = best(&candidates, &missing) {
        let candidate = candidates.remove(best);
        missing.retain(|name| !candidate.met.contains(name));
        taken.push(candidate);
    }
    let mut calls: usize = taken.iter().map(|c| c.calls).sum();
    for kind in ["stay", "wild", "stay", "stay", "typical", "stay"]
        .into_iter()
        .cycle()
    {
        if calls >= CALLS {
            break;
        }
        let fits = |c: &Candidate| c.list.name.starts_with(kind) && c.bytes < LONGEST;
        let next = candidates.iter().position(fits).expect("lists enough");
        let candidate = candidates.remove(next);
        calls += candidate.calls;
        taken.push(candidate);
    }
    taken.into_iter().map(|c| c.list).collect()
}

fn tried(list: List, wanted: &BTreeSet<String>) -> Candidate {
    let mut run = Run::new();
    run.list(&list.events);
    let names = run.coverage.met.keys();
    Candidate {
        list,
        bytes: run.text().len(),
        calls: run.coverage.calls,
        met: names
            .filter(|&name| wanted.contains(name))
            .cloned()
            .collect(),
    }
}

/// The first of those that meet most for each byte, if any meets something.
fn best(candidates: &[Candidate], missing: &BTreeSet<String>) -> Option<usize> {
    let gain = |c: &Candidate| c.met.intersection(missing).count();
    let is_better = |a: &Candidate, b: &Candidate| gain(a) * b.bytes > gain(b) * a.bytes;
    let mut best = None;
    for (i, candidate) in candidates.iter().enumerate() {
        let beats = |k: usize| is_better(candidate, &candidates[k]);
        if gain(candidate) > 0 && best.is_none_or(beats) {
            best = Some(i);
        }
    }
    best
}
