//! From space onto the sheet: what is to be seen, at which scale, and how long a scale bar is.

use crate::shapes::Point;

/// The box that points stand in.
#[derive(Clone, Copy, Debug, PartialEq)]
pub struct Bounds {
    pub low: Point,
    pub high: Point,
}

impl Bounds {
    /// None where there are no points.
    pub fn of(points: impl IntoIterator<Item = Point>) -> Option<Bounds> {
        points.into_iter().fold(None, |bounds: Option<Bounds>, p| {
            let Bounds { low, high } = bounds.unwrap_or(Bounds { low: p, high: p });
            let each = |f: fn(f64, f64) -> f64, q: Point| [f(q[0], p[0]), f(q[1], p[1]), f(q[2], p[2])];
            Some(Bounds { low: each(f64::min, low), high: each(f64::max, high) })
        })
    }

    fn size(&self, axis: usize) -> f64 {
        self.high[axis] - self.low[axis]
    }

    fn middle(&self, axis: usize) -> f64 {
        (self.high[axis] + self.low[axis]) / 2.0
    }

    /// Dots in a unit of length, so that front and side both fit into a panel.
    pub fn scale(&self, width: f64, height: f64) -> f64 {
        let room = [width, height, width];
        let fits = (0..3).map(|k| room[k] / self.size(k)).fold(f64::INFINITY, f64::min);
        if fits.is_finite() && fits > 0.0 {
            fits
        } else {
            1.0
        }
    }
}

/// A panel of the sheet with its middle, looking along z (front, axis 0 to the right) or along x (side, axis 2 to the right).
#[derive(Clone, Copy, Debug)]
pub struct View {
    pub axis: usize,
    pub bounds: Bounds,
    pub scale: f64,
    pub middle: [f64; 2],
}

impl View {
    pub fn at(&self, p: Point) -> [f64; 2] {
        let right = (p[self.axis] - self.bounds.middle(self.axis)) * self.scale;
        let up = (p[1] - self.bounds.middle(1)) * self.scale;
        [self.middle[0] + right, self.middle[1] - up]
    }
}

/// The longest of 1, 2, 5, 10, 20, .. and their tenths that is at most `most`.
pub fn round_length(most: f64) -> f64 {
    let ten = 10f64.powf(most.log10().floor());
    let best = [5.0, 2.0, 1.0].into_iter().find(|k| k * ten <= most * (1.0 + 1e-12));
    best.unwrap_or(1.0) * ten
}

/// A number in at most four significant digits.
pub fn short(x: f64) -> String {
    if x == 0.0 {
        return "0".to_string();
    }
    let digits = 3 - x.abs().log10().floor() as i32;
    if !(-1..=7).contains(&digits) {
        return format!("{x:.3e}");
    }
    let text = format!("{x:.*}", digits.max(0) as usize);
    match text.contains('.') {
        true => text.trim_end_matches('0').trim_end_matches('.').to_string(),
        false => text,
    }
}

#[cfg(test)]
mod tests {
    use super::*;

    #[test]
    fn lengths_of_scale_bars() {
        for (most, length) in [(1.0, 1.0), (1.9, 1.0), (2.0, 2.0), (49.0, 20.0), (99.0, 50.0), (0.07, 0.05)] {
            assert!((round_length(most) - length).abs() < 1e-9 * length, "{most}");
        }
    }

    #[test]
    fn short_numbers() {
        for (x, text) in
            [(0.0, "0"), (5.0, "5"), (0.05, "0.05"), (-12.3456, "-12.35"), (1234567.0, "1.235e6"), (20.0, "20")]
        {
            assert_eq!(short(x), text);
        }
    }

    #[test]
    fn y_points_up_and_x_or_z_to_the_right() {
        let bounds = Bounds { low: [0.0; 3], high: [2.0; 3] };
        for axis in [0, 2] {
            let view = View { axis, bounds, scale: 10.0, middle: [50.0, 40.0] };
            assert_eq!(view.at([1.0; 3]), [50.0, 40.0]);
            assert_eq!(view.at([1.0, 2.0, 1.0]), [50.0, 30.0]);
            let mut aside = [1.0; 3];
            aside[axis] = 2.0;
            assert_eq!(view.at(aside), [60.0, 40.0]);
        }
    }

    #[test]
    fn both_views_fit_their_panels() {
        let points = [[0.0, 0.0, 0.0], [1.0, -4.0, 9.0], [-3.0, 2.0, 1.0]];
        let bounds = Bounds::of(points).expect("points");
        let scale = bounds.scale(100.0, 80.0);
        for axis in [0, 2] {
            let view = View { axis, bounds, scale, middle: [50.0, 40.0] };
            for p in points {
                let [x, y] = view.at(p);
                assert!((-1e-9..=100.0 + 1e-9).contains(&x) && (-1e-9..=80.0 + 1e-9).contains(&y));
            }
        }
        assert_eq!(Bounds::of([]), None);
        assert_eq!(Bounds::of([[1.0; 3]]).expect("a point").scale(10.0, 10.0), 1.0);
    }
}
