//! Vectors of four numbers: three of a position, one of a twist.

use num_traits::Float;

pub trait Vec4<T> {
    fn add_in_place(&mut self, b: &Self);
}

impl<T: Float> Vec4<T> for [T; 4] {
    fn add_in_place(&mut self, b: &Self) {
        crate::vecn::add_in_place(self, b);
    }
}
