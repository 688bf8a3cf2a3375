//! A strand as a picture shows it.

use crate::shapes::Point;
use crate::timeline::{pins, points, Timeline};
use hairbench::{Bench, Kind, Pick, SEATS};

#[derive(Clone, Debug)]
pub struct Scene {
    pub seat: usize,
    pub rest: Vec<Point>,
    pub drape: Vec<Point>,
    /// Of each vertex: x, y, z, twist.
    pub pins: Vec<[bool; 4]>,
    pub pick: Option<Pick>,
    /// The steps made since the load.
    pub steps: usize,
}

/// None where the seat is empty.
pub fn scene(bench: &Bench, timeline: &Timeline, seat: usize, pick: Option<Pick>) -> Option<Scene> {
    let stay = timeline.sitting(seat)?;
    Some(Scene {
        seat,
        rest: points(bench, seat, Kind::RestPositions),
        drape: points(bench, seat, Kind::DrapePositions),
        pins: pins(bench, seat),
        pick,
        steps: stay.frames.len() - 1,
    })
}

pub fn scenes(bench: &Bench, timeline: &Timeline, held: &[Option<Pick>; SEATS]) -> Vec<Option<Scene>> {
    (0..SEATS).map(|seat| scene(bench, timeline, seat, held[seat])).collect()
}
