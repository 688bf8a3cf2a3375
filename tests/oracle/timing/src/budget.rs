//! An evening's budget: six seats, thirty steps a second, strands of 32 vertices, and solves that run to
//! their limit of 1,000 iterations.

use crate::clock::median;
use crate::iteration::{solved, MANY};
use crate::seats::{Seats, SEATS};
use crate::strand::six;
use crate::sweep::{of, Sample};
use compare::rng::Rng;

const STEPS_A_SECOND: f64 = 6.0 * 30.0;

pub fn table(rng: &mut Rng, strands: usize) {
    let samples = samples(rng, strands / SEATS);
    let timed = of(&samples, |s| s.rust).len();
    println!("\n| 32 vertices, 1,000 iterations | µs a static step | µs an iteration of it | six seats, 30 steps a second: share of one core |");
    println!("|---|---|---|---|");
    row("the Rust", median(&of(&samples, |s| s.rust)));
    row("ours", median(&of(&samples, |s| s.ours)));
    println!(
        "\nRust's time over ours: {:.2}. {timed} steps of {} strands that ran to 1,000 iterations.",
        median(&of(&samples, Sample::ratio)),
        samples.len()
    );
}

fn row(name: &str, ns: f64) {
    println!(
        "| {name} | {:.0} | {:.3} | {:.1} % |",
        ns / 1e3,
        ns / 1e6,
        ns * STEPS_A_SECOND / 1e7
    );
}

/// Those that end before the limit count as refused.
fn samples(rng: &mut Rng, rounds: usize) -> Vec<Sample> {
    let mut all = vec![];
    let mut seats = Seats::default();
    for round in 0..rounds {
        let mut strands = six(rng, 32);
        let mut samples = solved(&mut seats, &mut strands, MANY, round % 2 == 0);
        for sample in &mut samples {
            sample.refused |= sample.iterations < 1000.0;
        }
        all.extend(samples);
    }
    all
}
