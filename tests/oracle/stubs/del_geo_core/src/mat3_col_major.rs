//! Matrices of 3 by 3 numbers, row i, column j at place `i + 3j`.

use crate::vec3;
use num_traits::Float;
use std::array::from_fn;

/// A matrix from its entry at row i, column j.
fn from_entries<T>(entry: impl Fn(usize, usize) -> T) -> [T; 9] {
    from_fn(|place| entry(place % 3, place / 3))
}

/// 1 on the diagonal, +0 off it.
fn delta<T: Float>(i: usize, j: usize) -> T {
    if i == j {
        T::one()
    } else {
        T::zero()
    }
}

pub fn from_identity<T: Float>() -> [T; 9] {
    from_entries(delta)
}

/// Row i, column j: `(s*a_i)*b_j`.
pub fn from_scaled_outer_product<T: Float>(s: T, a: &[T; 3], b: &[T; 3]) -> [T; 9] {
    from_entries(|i, j| (s * a[i]) * b[j])
}

/// `delta_ij - z_i*z_j`, for a unit vector z.
pub fn from_projection_onto_plane<T: Float>(z: &[T; 3]) -> [T; 9] {
    from_entries(|i, j| delta::<T>(i, j) - z[i] * z[j])
}

/// `(a + b) + c`.
pub fn add_three<T: Float>(a: &[T; 9], b: &[T; 9], c: &[T; 9]) -> [T; 9] {
    from_fn(|place| (a[place] + b[place]) + c[place])
}

/// The turn that takes the unit vector a to the unit vector b the short way, as the pair of
/// `n = cross(a,b)` and `c = dot(a,b)`. The source only hands it on to `mult_vec`, so no matrix is
/// needed, and the product can be document 01's formula.
pub fn minimum_rotation_matrix<T: Float>(a: &[T; 3], b: &[T; 3]) -> ([T; 3], T) {
    (vec3::cross(a, b), vec3::dot(a, b))
}

/// The turn applied to v: entry i is `(c*v_i + cross(n,v)_i) + n_i*(dot(n,v)/(1+c))`.
pub fn mult_vec<T: Float>((n, c): &([T; 3], T), v: &[T; 3]) -> [T; 3] {
    let n_cross_v = vec3::cross(n, v);
    let along = vec3::dot(n, v) / (T::one() + *c);
    from_fn(|i| (*c * v[i] + n_cross_v[i]) + n[i] * along)
}

pub trait Mat3ColMajor<T> {
    fn add(&self, b: &Self) -> Self;
    fn scale(&self, s: T) -> Self;
    /// `[i][j]` is row i, column j.
    fn to_mat3_array_of_array(&self) -> [[T; 3]; 3];
}

impl<T: Float> Mat3ColMajor<T> for [T; 9] {
    fn add(&self, b: &Self) -> Self {
        from_fn(|place| self[place] + b[place])
    }
    fn scale(&self, s: T) -> Self {
        from_fn(|place| self[place] * s)
    }
    fn to_mat3_array_of_array(&self) -> [[T; 3]; 3] {
        from_fn(|i| from_fn(|j| self[i + 3 * j]))
    }
}
