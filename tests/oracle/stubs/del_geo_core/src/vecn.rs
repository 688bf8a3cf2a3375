//! Vectors of N numbers; the source uses them with N = 4.

use num_traits::Float;
use std::array::from_fn;

/// Sums upward from +0.
pub fn dot<T: Float, const N: usize>(a: &[T; N], b: &[T; N]) -> T {
    (0..N).fold(T::zero(), |sum, i| sum + a[i] * b[i])
}

pub fn add_in_place<T: Float, const N: usize>(a: &mut [T; N], b: &[T; N]) {
    for i in 0..N {
        a[i] = a[i] + b[i];
    }
}

pub fn scale_in_place<T: Float, const N: usize>(a: &mut [T; N], s: T) {
    for x in a {
        *x = *x * s;
    }
}

pub trait VecN<T> {
    fn add(&self, b: &Self) -> Self;
    fn add_in_place(&mut self, b: &Self);
    fn scale(&self, s: T) -> Self;
}

impl<T: Float, const N: usize> VecN<T> for [T; N] {
    fn add(&self, b: &Self) -> Self {
        from_fn(|i| self[i] + b[i])
    }
    fn add_in_place(&mut self, b: &Self) {
        add_in_place(self, b);
    }
    fn scale(&self, s: T) -> Self {
        from_fn(|i| self[i] * s)
    }
}
