//! Matrices of 4 by 4 numbers, row i, column j at place `i + 4j`.

use num_traits::Float;

/// The 3 by 3 block with zeros beside and below it, w at place 15.
pub fn from_mat3_col_major_adding_w<T: Float>(m: &[T; 9], w: T) -> [T; 16] {
    let mut r = [T::zero(); 16];
    for j in 0..3 {
        for i in 0..3 {
            r[i + 4 * j] = m[i + 3 * j];
        }
    }
    r[15] = w;
    r
}

pub fn from_diagonal<T: Float>(d0: T, d1: T, d2: T, d3: T) -> [T; 16] {
    let mut r = [T::zero(); 16];
    r[0] = d0;
    r[5] = d1;
    r[10] = d2;
    r[15] = d3;
    r
}

pub trait Mat4ColMajor<T> {
    /// Adds every entry, zeros too.
    fn add_in_place(&mut self, b: &Self);
}

impl<T: Float> Mat4ColMajor<T> for [T; 16] {
    fn add_in_place(&mut self, b: &Self) {
        crate::matn_col_major::add_in_place(self, b);
    }
}
