//! Roots of fresh numbers, the proved one beside the processor's.

use crate::clock::{median, times};
use compare::rng::Rng;
use std::hint::black_box;

const NUMBERS: usize = 20000;
const ROUNDS: usize = 200;

pub fn table(rng: &mut Rng) {
    let (mut ours, mut processor) = (vec![], vec![]);
    for _ in 0..ROUNDS {
        let numbers: Vec<f64> = (0..NUMBERS).map(|_| positive(rng)).collect();
        ours.push(a_root(&numbers, proved::sqrt));
        processor.push(a_root(&numbers, f64::sqrt));
        for &x in &numbers {
            assert_eq!(proved::sqrt(x).to_bits(), x.sqrt().to_bits(), "{x:e}");
        }
    }
    println!("\n| root | ns | millions a second |\n|---|---|---|");
    for (name, times) in [("`hairbench_sqrt`", &ours), ("`f64::sqrt`", &processor)] {
        let ns = median(times);
        println!("| {name} | {ns:.1} | {:.1} |", 1e3 / ns);
    }
    let ratio = median(&ours) / median(&processor);
    println!("\nA proved root takes as long as {ratio:.0} of the processor's.");
}

/// Normal, with any digits and an exponent of -100 to 99.
fn positive(rng: &mut Rng) -> f64 {
    let exponent = 1023 - 100 + rng.below(200) as u64;
    f64::from_bits(exponent << 52 | rng.bits() >> 12)
}

/// Nanoseconds a root, one after another; none waits for the one before.
fn a_root(numbers: &[f64], root: impl Fn(f64) -> f64) -> f64 {
    let time = times(1, |_| {
        for &x in numbers {
            black_box(root(x));
        }
    });
    time[0] / numbers.len() as f64
}
