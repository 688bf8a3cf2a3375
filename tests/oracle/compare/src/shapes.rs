//! Rest shapes.

use crate::numbers::{any, signed, sized};
use crate::rng::Rng;
use del_geo_core::vec3;

#[derive(Clone)]
pub struct Shape {
    pub positions: Vec<f64>,
    pub frames: Vec<f64>,
}

/// How many vertices: mostly few.
pub fn count(rng: &mut Rng) -> usize {
    match rng.below(10) {
        0 | 1 => 2,
        2 | 3 => 3,
        4..=8 => 4 + rng.below(6),
        _ => 10 + rng.below(23),
    }
}

/// A shape of n vertices: mostly curved, with frames square to the edges.
pub fn shape(rng: &mut Rng, n: usize) -> Shape {
    let points = match rng.chance(0.15) {
        true => straight(rng, n),
        false => curved(rng, n),
    };
    let frames = frames(rng, &points);
    Shape {
        positions: points.concat(),
        frames: frames.concat(),
    }
}

fn vector(rng: &mut Rng, size: f64) -> [f64; 3] {
    [0; 3].map(|_| rng.between(-size, size))
}

fn curved(rng: &mut Rng, n: usize) -> Vec<[f64; 3]> {
    let mut point = vector(rng, 1.0);
    let mut direction = vector(rng, 1.0);
    let bend = rng.between(0.1, 1.5);
    let mut points = vec![point];
    for _ in 1..n {
        direction = vec3::normalize(&vec3::add(&direction, &vector(rng, bend)));
        let length = rng.between(0.3, 1.3);
        point = vec3::add(&point, &vec3::scale(&direction, length));
        points.push(point);
    }
    points
}

fn straight(rng: &mut Rng, n: usize) -> Vec<[f64; 3]> {
    let axis = rng.below(3);
    let length = rng.one_of(&[1.0, 0.5, 0.7, -1.0]);
    let at = |i: usize| {
        let mut point = [0.0; 3];
        point[axis] = length * i as f64;
        point
    };
    (0..n).map(at).collect()
}

/// Mostly unit and square to the edges; some as they come.
fn frames(rng: &mut Rng, points: &[[f64; 3]]) -> Vec<[f64; 3]> {
    let raw = rng.chance(0.2);
    let mut frames: Vec<[f64; 3]> = points.iter().map(|_| vector(rng, 1.0)).collect();
    if !raw {
        for (i, ends) in points.windows(2).enumerate() {
            let edge = vec3::sub(&ends[1], &ends[0]);
            frames[i] = vec3::normalize(&vec3::orthogonalize(&edge, &frames[i]));
        }
    }
    frames
}

/// Changes a shape to one that a load may decline, or that overflows: other sizes, numbers of any
/// kind, edges of no length, a missing or an extra number.
pub fn spoil(rng: &mut Rng, shape: &mut Shape) {
    match rng.below(6) {
        0 => {
            let size = sized(rng, -160.0, 160.0);
            shape.positions.iter_mut().for_each(|x| *x *= size);
        }
        1 => put_any(rng, &mut shape.positions),
        2 => put_any(rng, &mut shape.frames),
        3 => shape.positions.copy_within(0..3, 3),
        4 => {
            let size = sized(rng, -10.0, 10.0);
            let size = signed(rng, size);
            shape.frames.iter_mut().for_each(|x| *x *= size);
        }
        _ => {
            let list = match rng.chance(0.5) {
                true => &mut shape.positions,
                false => &mut shape.frames,
            };
            match rng.chance(0.5) {
                true => list.push(0.5),
                false => drop(list.pop()),
            }
        }
    }
}

fn put_any(rng: &mut Rng, list: &mut [f64]) {
    for _ in 0..1 + rng.below(3) {
        let i = rng.below(list.len());
        list[i] = any(rng);
    }
}
