//! Timed steps of six strands at a time, by turns of the two programs.

use crate::clock::times;
use crate::seats::{Asked, Seats, SEATS};
use machine::StepNumbers;
use std::array::from_fn;

/// Of a step: nanoseconds and iterations.
#[derive(Clone, Copy)]
pub struct Sample {
    pub rust: f64,
    pub ours: f64,
    pub iterations: f64,
    pub refused: bool,
}

impl Sample {
    /// Rust's time over ours.
    pub fn ratio(&self) -> f64 {
        self.rust / self.ours
    }
}

/// A step of each seat by both. Unless the step is refused both must leave the same strand.
pub fn sweep(seats: &mut Seats, asked: &[Asked; SEATS], rust_first: bool) -> [Sample; SEATS] {
    let mut numbers = [StepNumbers::default(); SEATS];
    let mut rust = vec![];
    if rust_first {
        rust = times(SEATS, |seat| seats.rust(asked[seat]));
    }
    let ours = times(SEATS, |seat| numbers[seat] = seats.ours(asked[seat]));
    if !rust_first {
        rust = times(SEATS, |seat| seats.rust(asked[seat]));
    }
    from_fn(|seat| {
        let refused = numbers[seat].refusal != 0;
        if !refused {
            seats.check_same(seat, &numbers[seat]);
        }
        Sample {
            rust: rust[seat],
            ours: ours[seat],
            iterations: numbers[seat].count as f64,
            refused,
        }
    })
}

/// A number of each sample that is not refused.
pub fn of(samples: &[Sample], number: impl Fn(&Sample) -> f64) -> Vec<f64> {
    let accepted = samples.iter().filter(|sample| !sample.refused);
    accepted.map(number).collect()
}
