//! Stand-in for `num_traits`: the one trait that the source uses, for f64 alone.

use std::ops::{Add, Div, Mul, Neg, Sub};

pub trait Float:
    Copy
    + PartialOrd
    + Add<Output = Self>
    + Sub<Output = Self>
    + Mul<Output = Self>
    + Div<Output = Self>
    + Neg<Output = Self>
{
    fn zero() -> Self;
    fn one() -> Self;
    fn epsilon() -> Self;
    fn sqrt(self) -> Self;
    fn sin(self) -> Self;
    fn cos(self) -> Self;
}

impl Float for f64 {
    fn zero() -> f64 {
        0.0
    }
    fn one() -> f64 {
        1.0
    }
    /// 2^-52.
    fn epsilon() -> f64 {
        f64::EPSILON
    }
    /// IEEE 754's correctly rounded root.
    fn sqrt(self) -> f64 {
        f64::sqrt(self)
    }
    fn sin(self) -> f64 {
        let a = reduced(self);
        a * alternating_series(a, (1..=13).map(|k| 2 * k * (2 * k + 1)))
    }
    fn cos(self) -> f64 {
        let a = reduced(self);
        alternating_series(a, (1..=14).map(|k| (2 * k - 1) * 2 * k))
    }
}

/// The angle brought to between -pi and pi (document 01, "Update", whose decimals these are).
#[allow(clippy::approx_constant)]
fn reduced(angle: f64) -> f64 {
    const TWO_PI: f64 = 6.283185307179586;
    const PI: f64 = 3.141592653589793;
    let a = angle % TWO_PI;
    if a > PI {
        a - TWO_PI
    } else if a < -PI {
        a + TWO_PI
    } else {
        a
    }
}

/// `t = 1`, then `t = 1 - (z/d)*t` with z = a*a, from the last divisor down to the first.
fn alternating_series(a: f64, divisors: impl DoubleEndedIterator<Item = u32>) -> f64 {
    let z = a * a;
    divisors
        .rev()
        .fold(1.0, |t, d| 1.0 - (z / f64::from(d)) * t)
}

#[cfg(test)]
mod tests {
    use super::Float;

    /// The recurrences are sine and cosine, to a few units in the last place of 1.
    #[test]
    fn near_the_libraries_sine_and_cosine() {
        for i in -2000..=2000 {
            let angle = f64::from(i) * 0.00731;
            assert!(
                (Float::sin(angle) - f64::sin(angle)).abs() < 4e-15,
                "{angle}"
            );
            assert!(
                (Float::cos(angle) - f64::cos(angle)).abs() < 4e-15,
                "{angle}"
            );
        }
    }
}
