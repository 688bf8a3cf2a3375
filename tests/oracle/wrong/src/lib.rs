//! Deliberately wrong reference benches: a copy of source, stubs and bench, made by the build script,
//! in which one mutation at a time is switched on. With none on it is the reference.

// The source is not ours to tidy.
#![allow(clippy::all, mismatched_lifetime_syntaxes, dead_code, unused)]

pub mod instead;
pub mod mutations;

include!(concat!(env!("OUT_DIR"), "/modules.rs"));

use bench::calls;
use machine::{Areas, Load, Looked, Machine, Pick, Record, StepNumbers, Stepped};
use std::sync::atomic::{AtomicUsize, Ordering};

static SWITCH: AtomicUsize = AtomicUsize::new(0);

/// Whether the mutation of this number, counted from 1, is on.
fn is(mutation: usize) -> bool {
    SWITCH.load(Ordering::Relaxed) == mutation
}

/// The bench with the mutation of this number; 0 for none.
pub struct Wrong(usize);

impl Wrong {
    pub fn new(mutation: usize) -> Wrong {
        instead::forget();
        Wrong(mutation)
    }

    fn on(&self) {
        SWITCH.store(self.0, Ordering::Relaxed);
    }
}

impl Machine for Wrong {
    fn load(&mut self, record: &mut Record, areas: Areas, seat: usize, load: Load) -> u8 {
        self.on();
        calls::load(record, areas, seat, load)
    }
    fn unload(&mut self, record: &mut Record, areas: Areas, seat: usize) -> u8 {
        self.on();
        calls::unload(record, areas, seat)
    }
    fn pin(
        &mut self,
        record: &Record,
        pins: &mut [u8],
        seat: usize,
        place: (usize, usize),
        byte: u8,
    ) -> u8 {
        self.on();
        calls::pin(record, pins, seat, place, byte)
    }
    fn look<'a>(
        &mut self,
        record: &Record,
        areas: Looked<'a>,
        seat: usize,
        kind: usize,
    ) -> &'a [f64] {
        self.on();
        calls::look(record, areas, seat, kind)
    }
    fn companion(&mut self, record: &Record, areas: Looked, seat: usize, kind: usize) -> u8 {
        self.on();
        calls::companion(record, areas, seat, kind)
    }
    fn step_static(
        &mut self,
        record: &Record,
        areas: Stepped,
        seat: usize,
        pick: Pick,
    ) -> StepNumbers {
        self.on();
        instead::lend(areas.work);
        calls::step(record, areas, seat, pick, None)
    }
    fn step_dynamic(
        &mut self,
        record: &Record,
        areas: Stepped,
        seat: usize,
        pick: Pick,
        dt: f64,
    ) -> StepNumbers {
        self.on();
        instead::lend(areas.work);
        calls::step(record, areas, seat, pick, Some(dt))
    }
}
