//! What the strands did, tick by tick, for pages that play it.
//!
//! A tick is one round of steps, or the loads and unloads between two rounds.

use crate::shapes::{norm, sub, Point};
use hairbench::{Bench, Component, Kind, Pick, StepReport, SEATS};

/// A strand after a step, or as loaded.
#[derive(Clone, Debug)]
pub struct Frame {
    pub tick: usize,
    pub points: Vec<Point>,
    /// None where the strand was just loaded.
    pub step: Option<Stepped>,
    pub pins: Vec<[bool; 4]>,
    pub pick: Option<Pick>,
}

#[derive(Clone, Copy, Debug)]
pub struct Stepped {
    pub report: StepReport,
    /// How far the vertex went that went farthest.
    pub moved: f64,
}

/// A strand's stay on a seat.
#[derive(Clone, Debug)]
pub struct Stay {
    pub seat: usize,
    /// The first frame is the strand at rest.
    pub frames: Vec<Frame>,
    /// The tick at which it is gone.
    pub end: Option<usize>,
}

/// What the ticks from one on belong to.
#[derive(Clone, Debug, PartialEq)]
pub struct Part {
    pub tick: usize,
    pub line: usize,
    pub text: String,
}

#[derive(Default)]
pub struct Timeline {
    pub ticks: usize,
    pub stays: Vec<Stay>,
    pub parts: Vec<Part>,
    /// Whether the last tick is one of loads and unloads.
    seating: bool,
}

/// The points of a seat's strand.
pub fn points(bench: &Bench, seat: usize, kind: Kind) -> Vec<Point> {
    let numbers = bench.look(seat, kind).unwrap_or(&[]);
    numbers.chunks_exact(3).map(|p| [p[0], p[1], p[2]]).collect()
}

pub fn pins(bench: &Bench, seat: usize) -> Vec<[bool; 4]> {
    let vertex = |v| Component::ALL.map(|c| bench.is_pinned(seat, v, c));
    (0..bench.count(seat)).map(vertex).collect()
}

impl Timeline {
    /// A tick for a load or an unload; neighbours share one.
    pub fn seating_tick(&mut self, line: usize) {
        if !self.seating {
            self.step_tick(line, "seats change");
            self.seating = true;
        }
    }

    /// A tick for a round of steps.
    pub fn step_tick(&mut self, line: usize, text: &str) {
        self.seating = false;
        if self.parts.last().is_none_or(|p| p.line != line) {
            self.parts.push(Part { tick: self.ticks, line, text: text.to_string() });
        }
        self.ticks += 1;
    }

    /// The stay on a seat that has not ended.
    pub fn sitting(&self, seat: usize) -> Option<&Stay> {
        self.stays.iter().find(|s| s.seat == seat && s.end.is_none())
    }

    pub fn begin(&mut self, bench: &Bench, seat: usize) {
        let frame = self.frame(bench, seat, None, None);
        self.stays.push(Stay { seat, frames: vec![frame], end: None });
    }

    pub fn end(&mut self, seat: usize) {
        let tick = self.ticks - 1;
        if let Some(stay) = self.stays.iter_mut().find(|s| s.seat == seat && s.end.is_none()) {
            stay.end = Some(tick);
        }
    }

    /// Notes an accepted step and says how far it moved the strand.
    pub fn note(&mut self, bench: &Bench, seat: usize, pick: Option<Pick>, report: StepReport) -> f64 {
        let mut frame = self.frame(bench, seat, pick, None);
        let Some(stay) = self.stays.iter_mut().find(|s| s.seat == seat && s.end.is_none()) else {
            return 0.0;
        };
        let before = stay.frames.last().map_or(&[][..], |f| &f.points);
        let moved = before.iter().zip(&frame.points).map(|(a, b)| norm(sub(*b, *a))).fold(0.0, f64::max);
        frame.step = Some(Stepped { report, moved });
        stay.frames.push(frame);
        moved
    }

    fn frame(&self, bench: &Bench, seat: usize, pick: Option<Pick>, step: Option<Stepped>) -> Frame {
        let points = points(bench, seat, Kind::DrapePositions);
        Frame { tick: self.ticks - 1, points, step, pins: pins(bench, seat), pick }
    }
}

/// The seats that have a strand.
pub fn taken(bench: &Bench) -> Vec<usize> {
    (0..SEATS).filter(|&seat| bench.count(seat) > 0).collect()
}
