//! Each seat's calls made again alone: on a fresh bench, with garbage in the work area before each call.

use crate::calls::{bits, perform, Made};
use hairbench::{Bench, SEATS};

/// What a seat's solo run showed.
#[derive(Clone, Debug, PartialEq)]
pub struct Verdict {
    pub seat: usize,
    pub calls: usize,
    /// What differed first, if anything did.
    pub difference: Option<String>,
}

/// Compares, bit for bit, every answer and the final strand of each seat with those of its solo run.
pub fn compare(made: &[Made], bench: &Bench) -> Vec<Verdict> {
    (0..SEATS).map(|seat| alone(made, bench, seat)).collect()
}

fn alone(made: &[Made], bench: &Bench, seat: usize) -> Verdict {
    let own: Vec<&Made> = made.iter().filter(|m| m.seat == seat).collect();
    let mut solo = Bench::new();
    let mut difference = None;
    for (k, m) in own.iter().enumerate() {
        soil(solo.work_mut(), k);
        let answer = perform(&mut solo, seat, &m.call);
        if difference.is_none() && bits(&answer) != bits(&m.answer) {
            difference = Some(format!("call {} of the seat is answered otherwise", k + 1));
        }
    }
    if difference.is_none() && solo.strand_bits(seat) != bench.strand_bits(seat) {
        difference = Some("the strand is left otherwise".to_string());
    }
    Verdict { seat, calls: own.len(), difference }
}

/// Garbage that differs from call to call.
fn soil(work: &mut [f64], k: usize) {
    let garbage = [f64::NAN, f64::INFINITY, f64::NEG_INFINITY, -0.0, 1.0e308, 5.0e-324, -1.0];
    for (i, number) in work.iter_mut().enumerate() {
        *number = garbage[(i + k) % garbage.len()];
    }
}

pub fn line(verdict: &Verdict) -> String {
    let Verdict { seat, calls, difference } = verdict;
    match difference {
        Some(difference) => format!("solo: seat {seat}: DIFFERS, {difference}"),
        None if *calls == 0 => format!("solo: seat {seat}: no calls"),
        None => format!("solo: seat {seat}: {calls} calls, every answer and the strand the same, bit for bit"),
    }
}
