//! What one iteration of the solve takes: a static step with many iterations, less the same step with
//! one, over the iterations between. And what the step with one takes, which is all else.

use crate::seats::{Seats, SEATS};
use crate::strand::{asked, six, Strand};
use crate::sweep::{sweep, Sample};
use crate::tables::{table, SIZES};
use compare::rng::Rng;

/// Met by the first iteration.
const ONE: f64 = 1e10;

/// Met after many. No squared residual is subnormal before.
pub const MANY: f64 = 1e-100;

pub fn tables(rng: &mut Rng, strands: usize) {
    let pairs = SIZES.map(|n| pairs(rng, n, strands / SEATS));
    let ones = pairs
        .each_ref()
        .map(|pairs| pairs.iter().map(|pair| pair.0));
    table(
        "static step with one iteration",
        &ones.map(Iterator::collect),
    );
    let iterations = pairs.each_ref().map(|pairs| pairs.iter().map(between));
    table("an iteration", &iterations.map(Iterator::collect));
}

/// Of each strand a step with one iteration and a step with many.
fn pairs(rng: &mut Rng, n: usize, rounds: usize) -> Vec<(Sample, Sample)> {
    let mut all = vec![];
    let mut seats = Seats::default();
    for round in 0..rounds {
        let mut strands = six(rng, n);
        let rust_first = round % 2 == 0;
        let one = solved(&mut seats, &mut strands, ONE, rust_first);
        let many = solved(&mut seats, &mut strands, MANY, rust_first);
        all.extend(one.into_iter().zip(many));
    }
    all
}

/// A static step of each strand, with the ratio that is given.
pub fn solved(
    seats: &mut Seats,
    strands: &mut [Strand; SEATS],
    ratio: f64,
    rust_first: bool,
) -> [Sample; SEATS] {
    for strand in &mut *strands {
        strand.settings.conv_ratio = ratio;
    }
    seats.lay(strands);
    sweep(seats, &asked(strands, false), rust_first)
}

/// The times of one iteration, and from how many. A solve that ends with the first tells nothing.
fn between((one, many): &(Sample, Sample)) -> Sample {
    let iterations = many.iterations - one.iterations;
    Sample {
        rust: (many.rust - one.rust) / iterations,
        ours: (many.ours - one.ours) / iterations,
        iterations,
        refused: one.refused || many.refused || iterations < 1.0,
    }
}
