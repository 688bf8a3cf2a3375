//! Matrices of N by N numbers, row i, column j at place `i + N*j`, where NN = N*N.

use num_traits::Float;
use std::array::from_fn;

/// Adds every entry, zeros too.
pub fn add_in_place<T: Float, const NN: usize>(a: &mut [T; NN], b: &[T; NN]) {
    crate::vecn::add_in_place(a, b);
}

/// Each entry sums upward from +0.
pub fn mult_vec<T: Float, const N: usize, const NN: usize>(a: &[T; NN], v: &[T; N]) -> [T; N] {
    from_fn(|i| (0..N).fold(T::zero(), |sum, j| sum + a[i + N * j] * v[j]))
}
