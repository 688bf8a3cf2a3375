//! The reference bench: document 01's calls and refusals on top of the unchanged functions of the
//! source. Nothing is kept in the lent work area.

pub mod calls;
pub mod given;
pub mod lines;
pub mod step;
pub mod strand;
mod whole;

use machine::{Areas, Load, Looked, Machine, Pick, Record, StepNumbers, Stepped};

/// After each step that it accepts it also makes the step with the whole simulator, and stops if
/// that leaves another strand or energy.
#[derive(Default)]
pub struct Reference;

impl Machine for Reference {
    fn load(&mut self, record: &mut Record, areas: Areas, seat: usize, load: Load) -> u8 {
        calls::load(record, areas, seat, load)
    }
    fn unload(&mut self, record: &mut Record, areas: Areas, seat: usize) -> u8 {
        calls::unload(record, areas, seat)
    }
    fn pin(
        &mut self,
        record: &Record,
        pins: &mut [u8],
        seat: usize,
        place: (usize, usize),
        byte: u8,
    ) -> u8 {
        calls::pin(record, pins, seat, place, byte)
    }
    fn look<'a>(
        &mut self,
        record: &Record,
        areas: Looked<'a>,
        seat: usize,
        kind: usize,
    ) -> &'a [f64] {
        calls::look(record, areas, seat, kind)
    }
    fn companion(&mut self, record: &Record, areas: Looked, seat: usize, kind: usize) -> u8 {
        calls::companion(record, areas, seat, kind)
    }
    fn step_static(
        &mut self,
        record: &Record,
        areas: Stepped,
        seat: usize,
        pick: Pick,
    ) -> StepNumbers {
        whole::checked_step(record, areas, seat, pick, None)
    }
    fn step_dynamic(
        &mut self,
        record: &Record,
        areas: Stepped,
        seat: usize,
        pick: Pick,
        dt: f64,
    ) -> StepNumbers {
        whole::checked_step(record, areas, seat, pick, Some(dt))
    }
}
