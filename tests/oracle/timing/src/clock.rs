//! Times in nanoseconds, and their medians.

use std::sync::OnceLock;
use std::time::Instant;

/// The times of `count` pieces of work one after another, with one reading of the clock between two,
/// less what that takes.
pub fn times(count: usize, work: impl FnMut(usize)) -> Vec<f64> {
    static READING: OnceLock<f64> = OnceLock::new();
    let reading = READING.get_or_init(reading);
    let readings = readings(count, work);
    readings.iter().map(|time| time - reading).collect()
}

/// What a reading of the clock takes. A single one is rounded to the clock's own step.
fn reading() -> f64 {
    let mean = || readings(1000, |_| {}).iter().sum::<f64>() / 1000.0;
    let means: Vec<f64> = (0..100).map(|_| mean()).collect();
    median(&means)
}

fn readings(count: usize, mut work: impl FnMut(usize)) -> Vec<f64> {
    let mut times = Vec::with_capacity(count);
    let mut last = Instant::now();
    for i in 0..count {
        work(i);
        let now = Instant::now();
        times.push((now - last).as_nanos() as f64);
        last = now;
    }
    times
}

/// The number below which the share lies; NaN of none.
pub fn quantile(numbers: &[f64], share: f64) -> f64 {
    let mut sorted = numbers.to_vec();
    sorted.sort_by(f64::total_cmp);
    let place = share * sorted.len().saturating_sub(1) as f64;
    let number = sorted.get(place.round() as usize);
    number.copied().unwrap_or(f64::NAN)
}

pub fn median(numbers: &[f64]) -> f64 {
    quantile(numbers, 0.5)
}
