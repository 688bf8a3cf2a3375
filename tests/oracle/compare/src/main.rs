//! `compare [LISTS [SEED]]`: the proved library against the reference, then its seats' solo runs.
//! `compare roots [COUNT [SEED]]`: its root against the processor's, ten million patterns or COUNT.
//! `compare wrong [LISTS [SEED]]`: wrong references against the reference; prints which are caught.
//! `compare show K [LISTS [SEED]]`: a short list that catches wrong reference K, counted from 1.

use bench::Reference;
use compare::compare::{compare, Tally};
use compare::crossings::crossings;
use compare::examples::examples;
use compare::isolation::isolated;
use compare::lists::{list, CALLS, TYPICAL, WILD};
use compare::roots::difference;
use compare::shrink::shrink;
use compare::{Event, Maker};
use machine::Machine;
use std::process::exit;
use wrong::mutations::{all, Mutation};
use wrong::Wrong;

fn reference() -> Box<dyn Machine> {
    Box::new(Reference)
}

/// The bench that is compared: the proved library.
fn tested() -> Box<dyn Machine> {
    Box::new(proved::Proved)
}

fn main() {
    let words: Vec<String> = std::env::args().skip(1).collect();
    let words: Vec<&str> = words.iter().map(|word| word.as_str()).collect();
    let good = match words[..] {
        ["wrong", ref rest @ ..] => wrong_references(count_and_seed(rest, 1000)),
        ["roots", ref rest @ ..] => same_roots(count_and_seed(rest, 10_000_000)),
        ["show", k, ref rest @ ..] => {
            let k = k.parse().expect("a number");
            compared(&|| Box::new(Wrong::new(k)), count_and_seed(rest, 1000))
        }
        ref rest => {
            let (count, seed) = count_and_seed(rest, 1000);
            compared(&tested, (count, seed)) & all_isolated(count, seed)
        }
    };
    exit(i32::from(!good));
}

fn count_and_seed(words: &[&str], count: u64) -> (u64, u64) {
    let number = |i: usize, default: u64| match words.get(i) {
        Some(word) => word.parse().expect("a number"),
        None => default,
    };
    (number(0, count), number(1, 1))
}

/// The lists made by hand, then as many typical ones, then as many wild ones.
fn lists(count: u64, seed: u64) -> impl Iterator<Item = (String, u64, Vec<Event>)> {
    let examples = examples()
        .into_iter()
        .map(|(name, events)| (name.to_string(), events));
    let made = examples.chain(crossings());
    let random = move |kind: &'static str, taste| {
        (seed..seed + count).map(move |seed| (format!("{kind} {seed}"), seed, list(seed, taste)))
    };
    made.map(|(name, events)| (name, 0, events))
        .chain(random("typical", TYPICAL))
        .chain(random("wild", WILD))
}

fn compared(tested: Maker, (count, seed): (u64, u64)) -> bool {
    let mut tally = Tally::default();
    for (name, seed, events) in lists(count, seed) {
        if compare(&reference, tested, &events, seed, &mut tally).is_err() {
            report(&name, tested, seed, events);
            return false;
        }
    }
    println!("{tally:?}");
    println!("compared: no difference");
    true
}

/// Prints the shortest list found that shows the difference.
fn report(name: &str, tested: Maker, seed: u64, events: Vec<Event>) {
    let run = |events: &[Event]| compare(&reference, tested, events, seed, &mut Tally::default());
    let events = shrink(events, |events| run(events).is_err());
    println!("{name}:");
    for event in &events {
        println!("  {event:?}");
    }
    println!("  {:?}", run(&events).unwrap_err());
}

fn all_isolated(count: u64, seed: u64) -> bool {
    let mut answers = 0;
    for seed in seed..seed + count {
        match isolated(&tested, &list(seed, CALLS), seed) {
            Ok(compared) => answers += compared,
            Err(what) => {
                println!("list {seed} of calls: {what}");
                return false;
            }
        }
    }
    println!("isolated: {answers} answers as in the solo runs");
    true
}

fn same_roots((count, seed): (u64, u64)) -> bool {
    let found = difference(proved::sqrt, count, seed);
    match found {
        None => println!("roots: {count} patterns, no difference"),
        Some(x) => println!("the root of {x:e} {:016X} differs", x.to_bits()),
    }
    found.is_none()
}

/// Whether all are caught but those that no step can show.
fn wrong_references((count, seed): (u64, u64)) -> bool {
    let mut good = true;
    let mut caught = 0;
    let mutations = all();
    for (index, mutation) in mutations.iter().enumerate() {
        let maker = || Box::new(Wrong::new(index + 1)) as Box<dyn Machine>;
        let list = caught_by(&maker, count, seed);
        good &= list.is_some() != mutation.hidden.is_some();
        caught += usize::from(list.is_some());
        let mixed = (seed..seed + count.min(100)).any(|seed| mixes(&maker, seed));
        let also = if mixed { "; isolation fails too" } else { "" };
        println!("{}{also}", verdict(mutation, list));
    }
    println!("{caught} of {} wrong references caught", mutations.len());
    good
}

/// The first list that shows a difference.
fn caught_by(tested: Maker, count: u64, seed: u64) -> Option<String> {
    lists(count, seed).find_map(|(name, seed, events)| {
        let result = compare(&reference, tested, &events, seed, &mut Tally::default());
        let difference = result.err()?;
        Some(format!("{name}, event {}", difference.event))
    })
}

/// Whether the isolation check fails.
fn mixes(tested: Maker, seed: u64) -> bool {
    isolated(tested, &list(seed, CALLS), seed).is_err()
}

fn verdict(mutation: &Mutation, caught: Option<String>) -> String {
    let name = mutation.name;
    match (caught, mutation.hidden) {
        (Some(list), None) => format!("caught      {name}: {list}"),
        (None, Some(why)) => format!("cannot show {name}: {why}"),
        (None, None) => format!("NOT CAUGHT  {name}"),
        (Some(list), Some(_)) => format!("SHOWN       {name}: {list}"),
    }
}
