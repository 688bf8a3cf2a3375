//! Edges between two points.

use crate::vec3;
use num_traits::Float;

/// The norm of the difference.
pub fn length<T: Float>(p0: &[T; 3], p1: &[T; 3]) -> T {
    vec3::norm(&vec3::sub(p1, p0))
}
