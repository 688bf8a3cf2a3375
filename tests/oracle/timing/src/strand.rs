//! Typical strands: curved, in motion, held at one end, some of them picked.

use crate::seats::{Asked, SEATS};
use crate::state::{frames, moved, vector};
use compare::rng::Rng;
use del_geo_core::vec3;
use machine::{Pick, Settings};
use std::array::from_fn;

pub struct Strand {
    pub settings: Settings,
    pub rest: Vec<[f64; 3]>,
    pub rest_frames: Vec<[f64; 3]>,
    pub positions: Vec<[f64; 3]>,
    pub frames: Vec<[f64; 3]>,
    pub velocities: Vec<[f64; 3]>,
    pub pins: Vec<[u8; 4]>,
    pub pick: Pick,
    pub dt: f64,
}

/// One for each seat.
pub fn six(rng: &mut Rng, n: usize) -> [Strand; SEATS] {
    [0; SEATS].map(|_| strand(rng, n))
}

/// The step of each.
pub fn asked(strands: &[Strand; SEATS], dynamic: bool) -> [Asked; SEATS] {
    from_fn(|seat| {
        let strand = &strands[seat];
        (seat, strand.pick, dynamic.then_some(strand.dt))
    })
}

fn strand(rng: &mut Rng, n: usize) -> Strand {
    let rest = curve(rng, n);
    let directions: Vec<_> = rest.iter().map(|_| vector(rng, 1.0)).collect();
    let rest_frames = frames(&rest, &directions);
    let pins = pins(rng, n);
    let positions = moved(rng, &rest, 0.03, &pins);
    let turned: Vec<_> = (rest_frames.iter())
        .map(|frame| vec3::add(frame, &vector(rng, 0.2)))
        .collect();
    Strand {
        settings: settings(rng),
        frames: frames(&positions, &turned),
        velocities: rest.iter().map(|_| vector(rng, 0.5)).collect(),
        pick: pick(rng, &positions),
        dt: rng.between(0.03, 0.04),
        rest,
        rest_frames,
        positions,
        pins,
    }
}

/// Edges of 0.15 to 0.25, each turned a little against the one before.
fn curve(rng: &mut Rng, n: usize) -> Vec<[f64; 3]> {
    let mut points = vec![vector(rng, 1.0)];
    let mut direction = vector(rng, 1.0);
    let bend = rng.between(0.1, 0.5);
    for i in 1..n {
        direction = vec3::normalize(&vec3::add(&direction, &vector(rng, bend)));
        let edge = vec3::scale(&direction, rng.between(0.15, 0.25));
        points.push(vec3::add(&points[i - 1], &edge));
    }
    points
}

/// Around the stiffnesses 1 and the ratio 1e-5 of the source's test.
fn settings(rng: &mut Rng) -> Settings {
    let mut stiffness = || sized(rng, -0.5, 0.5);
    Settings {
        stiff_length: stiffness(),
        stiff_bendtwist0: stiffness(),
        stiff_bendtwist1: stiffness(),
        stiff_bendtwist2: stiffness(),
        conv_ratio: sized(rng, -6.0, -4.0),
    }
}

/// Of a decimal exponent from low to high.
fn sized(rng: &mut Rng, low: f64, high: f64) -> f64 {
    10f64.powf(rng.between(low, high))
}

/// The first vertex, in half of the strands the second one too, and up to two components anywhere. Of two
/// vertices only the first.
fn pins(rng: &mut Rng, n: usize) -> Vec<[u8; 4]> {
    let mut pins = vec![[0; 4]; n];
    pins[0] = [1; 4];
    if n > 2 && rng.chance(0.5) {
        pins[1] = [1, 1, 1, 0];
    }
    if n > 2 {
        for _ in 0..rng.below(3) {
            pins[rng.below(n)][rng.below(4)] = 1;
        }
    }
    pins
}

/// In half of the strands a vertex is pulled to a goal near it.
fn pick(rng: &mut Rng, positions: &[[f64; 3]]) -> Pick {
    let vertex = rng.below(positions.len());
    let goal = vec3::add(&positions[vertex], &vector(rng, 0.05));
    rng.chance(0.5).then_some((vertex, goal))
}
