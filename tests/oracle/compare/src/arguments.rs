//! The arguments of the calls of a random list.

use crate::author::Author;
use crate::numbers::{any, signed, sized};
use crate::rng::Rng;
use crate::shapes::{count, shape, spoil};
use machine::{Lengths, Pick, Request, Settings, SPARE};

impl Author {
    pub fn load(&mut self, seat: usize) -> Request {
        let mut n = count(&mut self.rng);
        let mut shape = shape(&mut self.rng, n);
        if self.wild() {
            spoil(&mut self.rng, &mut shape);
        }
        if self.wild() {
            n = self.rng.one_of(&[0, 1, 2, 3, 33, usize::MAX]);
            if self.rng.chance(0.5) && n < 40 {
                shape.positions.resize(3 * n, 0.25);
                shape.frames.resize(3 * n, 0.75);
            }
        }
        if seat < 6 && self.known[seat].is_none() && shape.positions.len() > 5 {
            self.known[seat] = Some(shape.clone());
        }
        Request::Load {
            n,
            settings: self.settings(),
            positions: shape.positions,
            frames: shape.frames,
        }
    }

    fn settings(&mut self) -> Settings {
        let size = self.rng.between(-1.0, 1.5);
        let mut numbers = [0; 5].map(|_| sized(&mut self.rng, size - 0.5, size + 0.5));
        numbers[4] = sized(&mut self.rng, -9.0, -0.5);
        if self.rng.chance(0.1) {
            let i = self.rng.below(5);
            numbers[i] = self.rng.one_of(&[0.0, -0.0, 1.0]);
        }
        if self.wild() {
            let i = self.rng.below(5);
            let wide = sized(&mut self.rng, -200.0, 200.0);
            let other = any(&mut self.rng);
            numbers[i] = self.rng.one_of(&[wide, other, 1e-30, 1e30]);
        }
        Settings::from_numbers(numbers)
    }

    pub fn unload(&mut self, seat: usize) -> Request {
        if seat < 6 {
            self.known[seat] = None;
        }
        Request::Unload
    }

    pub fn pin(&mut self, seat: usize) -> Request {
        let n = self.vertices(seat);
        let mut vertex = self.rng.below(n);
        let mut component = self.rng.below(4);
        if self.rng.chance(0.02) || self.wild() {
            vertex = self.rng.one_of(&[n, n - 1, 31, 32, usize::MAX]);
        }
        if self.rng.chance(0.02) || self.wild() {
            component = self.rng.one_of(&[3, 4, 5, usize::MAX]);
        }
        Request::Pin {
            vertex,
            component,
            byte: self.rng.one_of(&[0, 0, 1, 1, 2, 7, 128, 255]),
        }
    }

    pub fn kind(&mut self) -> usize {
        match self.rng.chance(0.1) {
            true => self.rng.one_of(&[5, 6, usize::MAX]),
            false => self.rng.below(5),
        }
    }

    pub fn pick(&mut self, seat: usize) -> Pick {
        let n = self.vertices(seat);
        if self.rng.chance(0.25) {
            return None;
        }
        let mut vertex = self.rng.below(n);
        let goal = self.goal(seat, vertex);
        if self.rng.chance(0.02) || self.wild() {
            vertex = self.rng.one_of(&[n, n - 1, usize::MAX]);
        }
        Some((vertex, goal))
    }

    /// Near where the vertex was loaded, far from there, there itself, or beyond its neighbour, so that
    /// the edge turns about.
    fn goal(&mut self, seat: usize, vertex: usize) -> [f64; 3] {
        let rng = &mut self.rng;
        let known = self.known.get(seat).and_then(|k| k.as_ref());
        let at = |v: usize| match known {
            Some(shape) => {
                [0, 1, 2].map(|i| shape.positions.get(3 * v + i).copied().unwrap_or(0.5))
            }
            None => [0.5, 0.25, -0.75],
        };
        let here = at(vertex);
        let size = rng.one_of(&[0.01, 0.3, 0.3, 2.0, 50.0, 0.0]);
        let mut goal = here.map(|x| x + rng.between(-size, size));
        if rng.chance(0.1) && vertex > 0 {
            let other = at(vertex - 1);
            goal = [0, 1, 2].map(|i| 2.0 * other[i] - here[i]);
        }
        if self.wild() {
            let i = self.rng.below(3);
            goal[i] = any(&mut self.rng);
        }
        goal
    }

    pub fn time(&mut self) -> f64 {
        if !self.wild() {
            return sized(&mut self.rng, -2.0, 0.5);
        }
        let wide = sized(&mut self.rng, -160.0, 160.0);
        let other = any(&mut self.rng);
        let negative = signed(&mut self.rng, 0.1);
        self.rng.one_of(&[wide, wide, other, negative])
    }

    pub fn lengths(&mut self) -> Lengths {
        let mut lent = Lengths::default();
        if self.rng.chance(self.taste.lengths) {
            let length = match self.rng.below(3) {
                0 => &mut lent.rest,
                1 => &mut lent.drape,
                _ => &mut lent.pins,
            };
            *length = other_length(&mut self.rng, *length);
        }
        if self.rng.chance(self.taste.work) {
            lent.work = other_length(&mut self.rng, lent.work);
        }
        lent
    }
}

fn other_length(rng: &mut Rng, length: usize) -> usize {
    rng.one_of(&[0, 1, length - 1, length + 1, length + SPARE, 96])
}
