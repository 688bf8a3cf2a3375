//! Where a strand stands beside its rest shape.

use compare::rng::Rng;
use del_geo_core::vec3;

pub fn vector(rng: &mut Rng, size: f64) -> [f64; 3] {
    [0; 3].map(|_| rng.between(-size, size))
}

/// Each vertex a little away from its place; pinned components stay.
pub fn moved(rng: &mut Rng, points: &[[f64; 3]], size: f64, pins: &[[u8; 4]]) -> Vec<[f64; 3]> {
    let near = |(point, pin): (&[f64; 3], &[u8; 4])| {
        let by = vector(rng, size);
        [0, 1, 2].map(|k| {
            if pin[k] == 0 {
                point[k] + by[k]
            } else {
                point[k]
            }
        })
    };
    points.iter().zip(pins).map(near).collect()
}

/// Unit, square to the edges, nearest to the given directions. The last one belongs to no edge.
pub fn frames(points: &[[f64; 3]], directions: &[[f64; 3]]) -> Vec<[f64; 3]> {
    let mut frames = directions.to_vec();
    for (i, ends) in points.windows(2).enumerate() {
        let edge = vec3::sub(&ends[1], &ends[0]);
        frames[i] = vec3::normalize(&vec3::orthogonalize(&edge, &frames[i]));
    }
    frames
}
