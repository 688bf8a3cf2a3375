//! Tables of times by the number of vertices.

use crate::clock::{median, quantile};
use crate::sweep::{of, Sample};

pub const SIZES: [usize; 5] = [2, 4, 8, 16, 32];

/// Each row has the samples of one size. Refused ones are left out, and counted below.
pub fn table(title: &str, rows: &[Vec<Sample>; 5]) {
    println!("\n| {title}, vertices | iterations | Rust, ns | ours, ns | Rust's median over ours | median of the ratios (quartiles) | Rust, ns a vertex | ours, ns a vertex |");
    println!("|---|---|---|---|---|---|---|---|");
    for (n, samples) in SIZES.iter().zip(rows) {
        row(*n, samples);
    }
    let all = rows.concat();
    let refused = all.iter().filter(|sample| sample.refused).count();
    println!("\n{} strands, {refused} of them left out.", all.len());
}

fn row(n: usize, samples: &[Sample]) {
    let iterations = median(&of(samples, |s| s.iterations));
    let rust = median(&of(samples, |s| s.rust));
    let ours = median(&of(samples, |s| s.ours));
    let ratios = of(samples, Sample::ratio);
    let [low, middle, high] = [0.25, 0.5, 0.75].map(|share| quantile(&ratios, share));
    println!(
        "| {n} | {iterations} | {rust:.0} | {ours:.0} | {:.2} | {middle:.2} ({low:.2} to {high:.2}) | {:.1} | {:.1} |",
        rust / ours,
        rust / n as f64,
        ours / n as f64
    );
}
