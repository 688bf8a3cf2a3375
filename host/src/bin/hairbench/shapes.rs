//! Shapes of strands at rest, and frames along them.

use std::f64::consts::TAU;

pub type Point = [f64; 3];

pub fn add(a: Point, b: Point) -> Point {
    [a[0] + b[0], a[1] + b[1], a[2] + b[2]]
}

pub fn sub(a: Point, b: Point) -> Point {
    [a[0] - b[0], a[1] - b[1], a[2] - b[2]]
}

pub fn scale(a: Point, s: f64) -> Point {
    a.map(|x| x * s)
}

pub fn dot(a: Point, b: Point) -> f64 {
    a[0] * b[0] + a[1] * b[1] + a[2] * b[2]
}

pub fn cross(a: Point, b: Point) -> Point {
    [a[1] * b[2] - a[2] * b[1], a[2] * b[0] - a[0] * b[2], a[0] * b[1] - a[1] * b[0]]
}

pub fn norm(a: Point) -> f64 {
    dot(a, a).sqrt()
}

/// None where the length is 0 or not finite.
fn unit(a: Point) -> Option<Point> {
    let length = norm(a);
    (length > 0.0 && length.is_finite()).then(|| scale(a, 1.0 / length))
}

/// A unit vector across a unit vector.
fn across(z: Point) -> Point {
    let aside = if z[0].abs() < 0.9 { [1.0, 0.0, 0.0] } else { [0.0, 0.0, 1.0] };
    unit(sub(aside, scale(z, dot(aside, z)))).unwrap_or([1.0, 0.0, 0.0])
}

/// A place, a unit direction and two unit vectors across it.
#[derive(Clone, Copy, Debug)]
pub struct Axis {
    origin: Point,
    along: Point,
    right: Point,
    up: Point,
}

impl Axis {
    pub fn new(origin: Point, direction: Point) -> Result<Axis, String> {
        let along = unit(direction).ok_or("direction= has no length to work with")?;
        let right = across(along);
        Ok(Axis { origin, along, right, up: cross(along, right) })
    }

    fn at(&self, along: f64, right: f64, up: f64) -> Point {
        let aside = add(scale(self.right, right), scale(self.up, up));
        add(self.origin, add(scale(self.along, along), aside))
    }
}

/// How far along its strand each of n vertices is, from 0 to 1.
fn parts(n: usize) -> impl Iterator<Item = f64> {
    (0..n).map(move |i| i as f64 / (n - 1) as f64)
}

/// n vertices from the origin along the direction.
pub fn straight(n: usize, length: f64, axis: Axis) -> Vec<Point> {
    parts(n).map(|t| axis.at(length * t, 0.0, 0.0)).collect()
}

/// n vertices on a helix that begins at the origin and winds along the direction. The length is measured along the curve.
pub fn curl(n: usize, length: f64, radius: f64, turns: f64, axis: Axis) -> Result<Vec<Point>, String> {
    let around = TAU * radius * turns;
    if radius <= 0.0 || turns <= 0.0 {
        return Err("radius= and turns= are to be above 0".to_string());
    }
    if around >= length {
        return Err(format!("{turns} turns of radius {radius} need more than length={length}"));
    }
    let height = (length * length - around * around).sqrt();
    let vertex = |t: f64| {
        let (sin, cos) = (TAU * turns * t).sin_cos();
        axis.at(height * t, radius * (1.0 - cos), radius * sin)
    };
    Ok(parts(n).map(vertex).collect())
}

/// The vector v turned as the unit vector a turns into b on the shortest way; as it is where a is opposite to b.
fn turned(v: Point, a: Point, b: Point) -> Point {
    let (n, c) = (cross(a, b), dot(a, b));
    if 1.0 + c < 1.0e-9 {
        return v;
    }
    add(add(scale(v, c), cross(n, v)), scale(n, dot(n, v) / (1.0 + c)))
}

/// Frames by parallel transport: across the first edge, then turned from edge to edge. The last vertex, at which no edge
/// begins, has the frame of the one before. An edge of no length passes the frame on.
pub fn transported(points: &[Point]) -> Vec<Point> {
    let edges: Vec<Option<Point>> = points.windows(2).map(|p| unit(sub(p[1], p[0]))).collect();
    let mut along = edges.iter().flatten().next().copied().unwrap_or([0.0, 0.0, 1.0]);
    let mut frame = across(along);
    let mut frames = vec![];
    for edge in edges {
        if let Some(z) = edge {
            frame = turned(frame, along, z);
            frame = unit(sub(frame, scale(z, dot(frame, z)))).unwrap_or(across(z));
            along = z;
        }
        frames.push(frame);
    }
    frames.push(frame);
    frames
}

#[cfg(test)]
mod tests {
    use super::*;

    fn length(points: &[Point]) -> f64 {
        points.windows(2).map(|p| norm(sub(p[1], p[0]))).sum()
    }

    fn axis() -> Axis {
        Axis::new([1.0, 2.0, 3.0], [0.0, -2.0, 0.0]).expect("a direction")
    }

    #[test]
    fn a_straight_strand_has_equal_edges_and_ends_where_it_should() {
        let points = straight(5, 8.0, axis());
        assert_eq!(points[0], [1.0, 2.0, 3.0]);
        assert_eq!(points[4], [1.0, -6.0, 3.0]);
        assert!(points.windows(2).all(|p| (norm(sub(p[1], p[0])) - 2.0).abs() < 1e-12));
    }

    #[test]
    fn a_curl_has_its_radius_turns_and_length() {
        let points = curl(2000, 12.0, 0.5, 3.0, axis()).expect("long enough");
        assert_eq!(points[0], [1.0, 2.0, 3.0]);
        assert!((length(&points) - 12.0).abs() < 1e-3);
        for p in &points {
            let (dx, dz) = (p[0] - 1.5, p[2] - 3.0);
            assert!((dx.hypot(dz) - 0.5).abs() < 1e-9);
        }
        let rightmost = points.windows(3).filter(|p| p[1][0] > p[0][0] && p[1][0] >= p[2][0]).count();
        assert_eq!(rightmost, 3);
        assert!(points.windows(2).all(|p| p[1][1] < p[0][1]));
    }

    #[test]
    fn a_curl_that_does_not_fit_is_declined() {
        assert!(curl(20, 3.0, 1.0, 1.0, axis()).is_err());
        assert!(curl(20, 3.0, 0.0, 1.0, axis()).is_err());
        assert!(curl(20, 30.0, 1.0, -1.0, axis()).is_err());
        assert!(Axis::new([0.0; 3], [0.0; 3]).is_err());
    }

    #[test]
    fn frames_are_unit_vectors_across_their_edges() {
        let points = curl(32, 20.0, 1.0, 2.0, axis()).expect("long enough");
        let frames = transported(&points);
        assert_eq!(frames.len(), 32);
        for (p, f) in points.windows(2).zip(&frames) {
            assert!((norm(*f) - 1.0).abs() < 1e-12);
            assert!(dot(sub(p[1], p[0]), *f).abs() < 1e-12);
        }
        assert_eq!(frames[30], frames[31]);
    }

    #[test]
    fn frames_do_not_twist_from_edge_to_edge() {
        let points = curl(32, 20.0, 1.0, 2.0, axis()).expect("long enough");
        let frames = transported(&points);
        for k in 0..30 {
            let a = unit(sub(points[k + 1], points[k])).expect("an edge");
            let b = unit(sub(points[k + 2], points[k + 1])).expect("an edge");
            assert!(norm(sub(turned(frames[k], a, b), frames[k + 1])) < 1e-12);
        }
    }

    #[test]
    fn degenerate_points_get_finite_frames() {
        let same = transported(&[[1.0; 3]; 4]);
        let back = transported(&[[0.0; 3], [1.0, 0.0, 0.0], [0.0; 3], [0.0; 3]]);
        assert!(same.iter().chain(&back).all(|f| (norm(*f) - 1.0).abs() < 1e-12));
    }
}
