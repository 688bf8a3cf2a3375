//! Whole steps, one of each strand.

use crate::seats::{Seats, SEATS};
use crate::strand::{asked, six};
use crate::sweep::{sweep, Sample};
use crate::tables::{table, SIZES};
use compare::rng::Rng;

pub fn tables(rng: &mut Rng, strands: usize) {
    for (title, dynamic) in [("static step", false), ("dynamic step", true)] {
        let rows = SIZES.map(|n| samples(rng, n, strands / SEATS, dynamic));
        table(title, &rows);
    }
}

/// Six fresh strands a round. The first to step is now the one, now the other.
fn samples(rng: &mut Rng, n: usize, rounds: usize, dynamic: bool) -> Vec<Sample> {
    let mut all = vec![];
    let mut seats = Seats::default();
    for round in 0..rounds {
        let strands = six(rng, n);
        seats.lay(&strands);
        all.extend(sweep(&mut seats, &asked(&strands, dynamic), round % 2 == 0));
    }
    all
}
