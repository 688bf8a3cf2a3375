//! The proved library as a `Machine`: crate bench_c, built by `rt lib` there. Every call is sound: an area is
//! lent as a slice's own pointer and length, and the library keeps no pointer.

use machine::exported::*;
use machine::{Areas, Load, Looked, Machine, Pick, Record, StepNumbers, Stepped};

pub struct Proved;

/// The library's root.
pub fn sqrt(x: f64) -> f64 {
    unsafe { hairbench_sqrt(x) }
}

/// A pick as it crosses: a flag, a vertex and a goal. Any flag but 0 is a pick.
fn flat(pick: Pick) -> (u8, usize, [f64; 3]) {
    match pick {
        None => (0, usize::MAX, [f64::NAN; 3]),
        Some((vertex, goal)) => (1 + (vertex % 255) as u8, vertex, goal),
    }
}

fn numbers(report: Report) -> StepNumbers {
    StepNumbers {
        refusal: report.number,
        energy: report.energy,
        count: report.count,
        ratio: report.ratio,
    }
}

impl Machine for Proved {
    fn load(&mut self, record: &mut Record, a: Areas, seat: usize, load: Load) -> u8 {
        let after = unsafe {
            hairbench_load_value(
                *record,
                a.rest.as_mut_ptr(),
                a.rest.len(),
                a.drape.as_mut_ptr(),
                a.drape.len(),
                a.pins.as_mut_ptr(),
                a.pins.len(),
                seat,
                load.n,
                load.settings,
                load.positions.as_ptr(),
                load.positions.len(),
                load.frames.as_ptr(),
                load.frames.len(),
            )
        };
        *record = after.seats;
        after.refusal
    }
    fn unload(&mut self, record: &mut Record, a: Areas, seat: usize) -> u8 {
        let after = unsafe {
            hairbench_unload_value(
                *record,
                a.rest.as_mut_ptr(),
                a.rest.len(),
                a.drape.as_mut_ptr(),
                a.drape.len(),
                a.pins.as_mut_ptr(),
                a.pins.len(),
                seat,
            )
        };
        *record = after.seats;
        after.refusal
    }
    fn pin(
        &mut self,
        record: &Record,
        pins: &mut [u8],
        seat: usize,
        (vertex, component): (usize, usize),
        byte: u8,
    ) -> u8 {
        let (start, length) = (pins.as_mut_ptr(), pins.len());
        unsafe { hairbench_pin(*record, start, length, seat, vertex, component, byte) }
    }
    /// The part that the place names.
    fn look<'a>(&mut self, record: &Record, a: Looked<'a>, seat: usize, kind: usize) -> &'a [f64] {
        let (rest, drape) = (a.rest, a.drape);
        let place = unsafe {
            hairbench_look(
                *record,
                rest.as_ptr(),
                rest.len(),
                drape.as_ptr(),
                drape.len(),
                seat,
                kind,
            )
        };
        let area = if kind < 2 { rest } else { drape };
        &area[place.at..place.at + place.count]
    }
    fn companion(&mut self, record: &Record, a: Looked, seat: usize, kind: usize) -> u8 {
        let (rest, drape) = (a.rest, a.drape);
        unsafe {
            hairbench_companion(
                *record,
                rest.as_ptr(),
                rest.len(),
                drape.as_ptr(),
                drape.len(),
                seat,
                kind,
            )
        }
    }
    fn step_static(&mut self, record: &Record, a: Stepped, seat: usize, pick: Pick) -> StepNumbers {
        let (flag, vertex, [x, y, z]) = flat(pick);
        numbers(unsafe {
            hairbench_step_static(
                *record,
                a.rest.as_ptr(),
                a.rest.len(),
                a.drape.as_mut_ptr(),
                a.drape.len(),
                a.pins.as_ptr(),
                a.pins.len(),
                a.work.as_mut_ptr(),
                a.work.len(),
                seat,
                flag,
                vertex,
                x,
                y,
                z,
            )
        })
    }
    fn step_dynamic(
        &mut self,
        record: &Record,
        a: Stepped,
        seat: usize,
        pick: Pick,
        dt: f64,
    ) -> StepNumbers {
        let (flag, vertex, [x, y, z]) = flat(pick);
        numbers(unsafe {
            hairbench_step_dynamic(
                *record,
                a.rest.as_ptr(),
                a.rest.len(),
                a.drape.as_mut_ptr(),
                a.drape.len(),
                a.pins.as_ptr(),
                a.pins.len(),
                a.work.as_mut_ptr(),
                a.work.len(),
                seat,
                flag,
                vertex,
                x,
                y,
                z,
                dt,
            )
        })
    }
}
