//! Six strands, laid for both programs: on the seats of a bench, and as simulators of the Rust.

use crate::strand::Strand;
use bench::strand::{drape_part, pin_part, put_drape, rest_part, rod, Rod};
use machine::{Bench, Machine, Pick, Record, StepNumbers, Stepped, DRAPE, PINS, REST, WORK};
use proved::Proved;

pub const SEATS: usize = 6;

/// What a step is asked: seat, pick, and the time of a dynamic one.
pub type Asked = (usize, Pick, Option<f64>);

pub struct Seats {
    bench: Bench,
    work: Vec<f64>,
    rods: Vec<Rod>,
}

impl Seats {
    pub fn of(strands: &[Strand]) -> Seats {
        let mut seats = Seats::default();
        seats.lay(strands);
        seats
    }

    /// Other strands on the same places.
    pub fn lay(&mut self, strands: &[Strand]) {
        for (seat, strand) in strands.iter().enumerate() {
            lay(&mut self.bench, seat, strand);
        }
        let (record, areas) = lent(&mut self.bench, &mut self.work);
        let count = strands.len();
        self.rods = (0..count).map(|seat| rod(record, &areas, seat)).collect();
    }

    pub fn ours(&mut self, (seat, pick, dt): Asked) -> StepNumbers {
        let (record, areas) = lent(&mut self.bench, &mut self.work);
        match dt {
            None => Proved.step_static(record, areas, seat, pick),
            Some(dt) => Proved.step_dynamic(record, areas, seat, pick, dt),
        }
    }

    pub fn rust(&mut self, (seat, pick, dt): Asked) {
        match dt {
            None => self.rods[seat].update_static(&pick),
            Some(dt) => self.rods[seat].update_dynamic(&pick, dt),
        }
    }

    /// Stops unless both have the same positions, frames, velocities, working copy and energy.
    pub fn check_same(&self, seat: usize, numbers: &StepNumbers) {
        let mut drape = self.bench.drape.clone();
        put_drape(&mut drape, seat, &self.rods[seat]);
        let bits = |drape: &[f64]| {
            drape[drape_part(seat)]
                .iter()
                .map(|x| x.to_bits())
                .collect()
        };
        let (rust, ours): (Vec<u64>, Vec<u64>) = (bits(&drape), bits(&self.bench.drape));
        assert_eq!(rust, ours, "seat {seat}");
        assert_eq!(self.rods[seat].w.to_bits(), numbers.energy.to_bits());
    }
}

impl Default for Seats {
    fn default() -> Seats {
        Seats {
            bench: Bench::new(),
            work: vec![0.0; WORK],
            rods: vec![],
        }
    }
}

fn lent<'a>(bench: &'a mut Bench, work: &'a mut [f64]) -> (&'a Record, Stepped<'a>) {
    let areas = Stepped {
        rest: &bench.rest[..REST],
        drape: &mut bench.drape[..DRAPE],
        pins: &bench.pins[..PINS],
        work,
    };
    (&bench.record, areas)
}

fn lay(bench: &mut Bench, seat: usize, strand: &Strand) {
    bench.record.counts[seat] = strand.rest.len();
    bench.record.settings[seat] = strand.settings;
    let rest = [&strand.rest, &strand.rest_frames];
    put(&mut bench.rest[rest_part(seat)], &rest);
    let (positions, frames) = (&strand.positions, &strand.frames);
    let drape = [positions, frames, &strand.velocities, positions];
    put(&mut bench.drape[drape_part(seat)], &drape);
    let pins = &mut bench.pins[pin_part(seat)];
    pins.fill(0);
    let flat = strand.pins.as_flattened();
    pins[..flat.len()].copy_from_slice(flat);
}

/// Lists of vectors into parts of 96 numbers, zeros past their ends.
fn put(area: &mut [f64], lists: &[&Vec<[f64; 3]>]) {
    area.fill(0.0);
    for (part, list) in area.chunks_mut(96).zip(lists) {
        let flat = list.as_flattened();
        part[..flat.len()].copy_from_slice(flat);
    }
}
