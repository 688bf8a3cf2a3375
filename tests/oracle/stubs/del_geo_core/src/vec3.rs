//! Vectors of three numbers.

use num_traits::Float;
use std::array::from_fn;

pub fn add<T: Float>(a: &[T; 3], b: &[T; 3]) -> [T; 3] {
    from_fn(|i| a[i] + b[i])
}

pub fn sub<T: Float>(a: &[T; 3], b: &[T; 3]) -> [T; 3] {
    from_fn(|i| a[i] - b[i])
}

pub fn scale<T: Float>(a: &[T; 3], s: T) -> [T; 3] {
    from_fn(|i| a[i] * s)
}

/// No leading zero: `(a0b0 + a1b1) + a2b2`.
pub fn dot<T: Float>(a: &[T; 3], b: &[T; 3]) -> T {
    (a[0] * b[0] + a[1] * b[1]) + a[2] * b[2]
}

pub fn cross<T: Float>(a: &[T; 3], b: &[T; 3]) -> [T; 3] {
    [
        a[1] * b[2] - a[2] * b[1],
        a[2] * b[0] - a[0] * b[2],
        a[0] * b[1] - a[1] * b[0],
    ]
}

pub fn norm<T: Float>(v: &[T; 3]) -> T {
    dot(v, v).sqrt()
}

/// Multiplies by `1/norm`; it does not divide by the norm.
pub fn normalize<T: Float>(v: &[T; 3]) -> [T; 3] {
    scale(v, T::one() / norm(v))
}

/// `(a + b) + c`.
pub fn add_three<T: Float>(a: &[T; 3], b: &[T; 3], c: &[T; 3]) -> [T; 3] {
    from_fn(|i| (a[i] + b[i]) + c[i])
}

/// `f` without its part along `v`: `f - t*v`, `t = dot(v,f)/dot(v,v)`. Not made unit.
pub fn orthogonalize<T: Float>(v: &[T; 3], f: &[T; 3]) -> [T; 3] {
    let t = dot(v, f) / dot(v, v);
    from_fn(|i| f[i] - t * v[i])
}

/// Row vector times matrix, `a[i][j]` being row i, column j.
pub fn mult_mat3_array_of_array<T: Float>(q: &[T; 3], a: &[[T; 3]; 3]) -> [T; 3] {
    from_fn(|j| (q[0] * a[0][j] + q[1] * a[1][j]) + q[2] * a[2][j])
}

pub fn to_vec4_adding_w<T: Float>(v: &[T; 3], w: T) -> [T; 4] {
    [v[0], v[1], v[2], w]
}

/// The functions above as methods.
pub trait Vec3<T> {
    fn add(&self, b: &Self) -> Self;
    fn sub(&self, b: &Self) -> Self;
    fn add_in_place(&mut self, b: &Self);
    fn sub_in_place(&mut self, b: &Self);
    fn scale(&self, s: T) -> Self;
    fn dot(&self, b: &Self) -> T;
    fn cross(&self, b: &Self) -> Self;
    fn norm(&self) -> T;
    fn normalize(&self) -> Self;
    fn mult_mat3_array_of_array(&self, a: &[[T; 3]; 3]) -> Self;
}

impl<T: Float> Vec3<T> for [T; 3] {
    fn add(&self, b: &Self) -> Self {
        add(self, b)
    }
    fn sub(&self, b: &Self) -> Self {
        sub(self, b)
    }
    fn add_in_place(&mut self, b: &Self) {
        *self = add(self, b);
    }
    fn sub_in_place(&mut self, b: &Self) {
        *self = sub(self, b);
    }
    fn scale(&self, s: T) -> Self {
        scale(self, s)
    }
    fn dot(&self, b: &Self) -> T {
        dot(self, b)
    }
    fn cross(&self, b: &Self) -> Self {
        cross(self, b)
    }
    fn norm(&self) -> T {
        norm(self)
    }
    fn normalize(&self) -> Self {
        normalize(self)
    }
    fn mult_mat3_array_of_array(&self, a: &[[T; 3]; 3]) -> Self {
        mult_mat3_array_of_array(self, a)
    }
}
