//! The library's root against the processor's.

use crate::rng::Rng;
use machine::same;

/// Below this, a whole number's square is exact.
const HALF_DIGITS: u64 = 1 << 26;

/// A bit pattern of one of several kinds.
fn pattern(rng: &mut Rng) -> f64 {
    let bits = rng.bits();
    match rng.below(6) {
        0 => f64::from_bits(bits),
        1 => f64::from_bits(bits >> 12),
        2 => near_square(rng, (bits % HALF_DIGITS) as f64),
        3 => {
            let x = 1.0 + rng.unit();
            near_square(rng, x)
        }
        4 => f64::from_bits((bits & (1 << 63)) | (rng.below(2048) as u64) << 52),
        _ => f64::from_bits((1023 + bits % 2) << 52 | bits >> 12),
    }
}

/// Up to two values off the square of x, scaled by a power of four.
fn near_square(rng: &mut Rng, x: f64) -> f64 {
    let square = (x * x).to_bits() + rng.below(5) as u64;
    let scale = 2f64.powi(2 * (rng.below(400) as i32 - 200));
    f64::from_bits(square.saturating_sub(2)) * scale
}

/// The first of so many patterns whose roots differ.
pub fn difference(sqrt: fn(f64) -> f64, count: u64, seed: u64) -> Option<f64> {
    let mut rng = Rng::new(seed);
    (0..count)
        .map(|_| pattern(&mut rng))
        .find(|&x| !same(sqrt(x), x.sqrt()))
}
