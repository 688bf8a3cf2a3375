//! Numbers of every kind.

use crate::rng::Rng;

const SPECIAL: [f64; 14] = [
    0.0,
    -0.0,
    f64::INFINITY,
    f64::NEG_INFINITY,
    f64::NAN,
    f64::MIN_POSITIVE,
    -f64::MIN_POSITIVE,
    5e-324,
    f64::MAX,
    f64::MIN,
    1.0,
    -1.0,
    f64::EPSILON,
    1.0 / 1048576.0,
];

/// Above 0, of a decimal exponent from low to high.
pub fn sized(rng: &mut Rng, low: f64, high: f64) -> f64 {
    10f64.powf(rng.between(low, high))
}

pub fn signed(rng: &mut Rng, x: f64) -> f64 {
    if rng.chance(0.5) {
        -x
    } else {
        x
    }
}

/// A number of any kind; half of them are of a moderate size.
pub fn any(rng: &mut Rng) -> f64 {
    match rng.below(8) {
        0 | 1 => rng.one_of(&SPECIAL),
        2 => f64::from_bits(rng.bits()),
        3 => {
            let x = sized(rng, -300.0, 300.0);
            signed(rng, x)
        }
        _ => rng.between(-2.0, 2.0),
    }
}

/// What a work area may hold.
pub fn garbage(rng: &mut Rng, area: &mut [f64]) {
    let kind = rng.below(4);
    for x in area {
        *x = match kind {
            0 => f64::INFINITY,
            1 => f64::NAN,
            2 => f64::from_bits(rng.bits()),
            _ => any(rng),
        };
    }
}
