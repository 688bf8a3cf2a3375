//! Whole steps: `update_static` and `update_dynamic` of `rod3_darboux.rs`, one of each kind, then two
//! of each on end. The source drops the ratios of the solve, so the reference bench makes the steps
//! too; both must leave the same strand.

use crate::inputs::{Step, FREE, HELD, STEP};
use crate::print::{bits, Rows};
use crate::system::simulator;
use bench::step::{update_dynamic, update_static};
use machine::{Pick, StepNumbers};
use reference::rod3_darboux::RodSimulator;

pub fn both_kinds(rows: &mut Rows) {
    Twice::new(&STEP).step(rows, Some(STEP.pick), None);
    Twice::new(&STEP).step(rows, Some(STEP.pick), Some(STEP.dt));
}

/// The second step of each pair is of the strand that the first one leaves.
pub fn two_on_end(rows: &mut Rows) {
    let mut free = Twice::new(&FREE);
    free.step(rows, None, None);
    free.step(rows, Some(FREE.pick), None);

    let mut held = Twice::new(&HELD);
    held.step(rows, None, Some(HELD.dt));
    held.step(rows, Some(HELD.pick), Some(HELD.dt));
}

/// One strand twice: for the whole simulator, and for the reference bench.
struct Twice {
    whole: RodSimulator<f64>,
    rod: RodSimulator<f64>,
}

impl Twice {
    fn new(given: &Step) -> Self {
        let (whole, rod) = (strand(given), strand(given));
        Self { whole, rod }
    }

    /// A step of both, and its row: a dynamic one if dt is given.
    fn step(&mut self, rows: &mut Rows, pick: Pick, dt: Option<f64>) {
        rows.function(match dt {
            None => "update_static",
            Some(_) => "update_dynamic",
        });
        input(rows, &self.rod, pick, dt);
        match dt {
            None => self.whole.update_static(&pick),
            Some(dt) => self.whole.update_dynamic(&pick, dt),
        }
        let numbers = match dt {
            None => update_static(&mut self.rod, pick),
            Some(dt) => update_dynamic(&mut self.rod, pick, dt),
        };
        check_same(&self.whole, &self.rod);
        output(rows, &self.rod, &numbers.unwrap());
    }
}

/// The strand with velocities, and a working copy apart from the drape.
fn strand(given: &Step) -> RodSimulator<f64> {
    let mut rod = simulator();
    rod.vtx2isfix = given.pins.to_vec();
    rod.vtx2velo = given.velocities.concat();
    rod.vtx2xyz_tmp = given.working_copy.concat();
    rod.conv_ratio = given.conv_ratio;
    rod
}

fn check_same(a: &RodSimulator<f64>, b: &RodSimulator<f64>) {
    let strand = |rod: &RodSimulator<f64>| {
        let parts = [
            &rod.vtx2xyz_def,
            &rod.vtx2framex_def,
            &rod.vtx2velo,
            &rod.vtx2xyz_tmp,
        ];
        bits(&parts.map(|part| <[f64; 9]>::try_from(&part[..]).unwrap()))
    };
    assert_eq!(strand(a), strand(b));
    assert_eq!(a.w.to_bits(), b.w.to_bits());
}

fn input(rows: &mut Rows, rod: &RodSimulator<f64>, pick: Pick, dt: Option<f64>) {
    input_strand(rows, rod);
    if let Some((vertex, goal)) = pick {
        rows.input_whole("i_vtx", vertex);
        rows.input("pos_goal", &goal);
    }
    if let Some(dt) = dt {
        rows.input("dt", &[dt]);
    }
}

fn output(rows: &mut Rows, rod: &RodSimulator<f64>, numbers: &StepNumbers) {
    rows.output("w", &[numbers.energy]);
    rows.output_whole("count", numbers.count);
    rows.output("ratio", &[numbers.ratio]);
    for_each_part(rod, |label, part| rows.output(label, part));
}

fn input_strand(rows: &mut Rows, rod: &RodSimulator<f64>) {
    rows.input_whole("num_vtx", rod.vtx2xyz_ini.len() / 3);
    rows.input("vtx2xyz_ini", &rod.vtx2xyz_ini);
    rows.input("vtx2framex_ini", &rod.vtx2framex_ini);
    for_each_part(rod, |label, part| rows.input(label, part));
    rows.input_pins("vtx2isfix", &rod.vtx2isfix);
    rows.input("stiff_length", &[rod.stiff_length]);
    rows.input("stiff_bendtwist", &rod.stiff_bendtwist);
    rows.input("conv_ratio", &[rod.conv_ratio]);
}

/// The four parts of the drape.
fn for_each_part(rod: &RodSimulator<f64>, mut each: impl FnMut(&str, &[f64])) {
    each("vtx2xyz_def", &rod.vtx2xyz_def);
    each("vtx2framex_def", &rod.vtx2framex_def);
    each("vtx2velo", &rod.vtx2velo);
    each("vtx2xyz_tmp", &rod.vtx2xyz_tmp);
}
