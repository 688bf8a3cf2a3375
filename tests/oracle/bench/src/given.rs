//! Which records, counts, settings and edges are taken.

use del_geo_core::vec3;
use machine::{Record, Settings};

/// `Err(k)` where the condition of refusal k is met.
pub fn decline(k: u8, met: bool) -> Result<(), u8> {
    match met {
        true => Err(k),
        false => Ok(()),
    }
}

pub fn all_finite(numbers: &[f64]) -> bool {
    numbers.iter().all(|x| x.is_finite())
}

pub fn good_count(n: usize) -> bool {
    (2..=32).contains(&n)
}

/// Finite and not below 0. -0 is not below 0.
pub fn good_settings(settings: &Settings) -> bool {
    let numbers = settings.numbers();
    all_finite(&numbers) && !numbers.iter().any(|&x| x < 0.0)
}

/// Of each seat: empty, or with a count and settings that load takes.
pub fn good_record(record: &Record) -> bool {
    (record.counts.iter().zip(&record.settings))
        .all(|(&n, settings)| n == 0 || good_count(n) && good_settings(settings))
}

/// No edge's computed squared length is not finite or not above 0.
pub fn edges_fit(positions: &[f64]) -> bool {
    let (points, _) = positions.as_chunks();
    points.windows(2).all(|ends| {
        let edge = vec3::sub(&ends[1], &ends[0]);
        let squared = vec3::dot(&edge, &edge);
        squared.is_finite() && squared > 0.0
    })
}
