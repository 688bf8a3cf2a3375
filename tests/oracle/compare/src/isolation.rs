//! Each seat of a list against its solo run, with other garbage in the work area; and what stays of a
//! load under pins. Document 01, "Bench".

use crate::numbers::garbage;
use crate::rng::Rng;
use crate::{Event, Maker};
use machine::{perform, Answer, Bench, Call, Request, SPARE, WORK};

/// How many answers were compared.
pub fn isolated(maker: Maker, events: &[Event], seed: u64) -> Result<usize, String> {
    let calls: Vec<Call> = events.iter().filter_map(call_of).collect();
    let (answers, bench) = run(maker, &calls, seed);
    let mut compared = 0;
    for seat in 0..6 {
        let is_own = |call: &&Call| call.seat == seat;
        let solo: Vec<Call> = calls.iter().filter(is_own).cloned().collect();
        let (alone, bench_alone) = run(maker, &solo, seed ^ (seat as u64 + 1) << 32);
        let own = calls.iter().zip(&answers).filter(|(c, _)| is_own(c));
        for (place, ((call, answer), expected)) in own.clone().zip(&alone).enumerate() {
            if !answer.same(expected) {
                return Err(format!(
                    "seat {seat}, its call {place}, {call:?}: {answer:?} {expected:?}"
                ));
            }
        }
        if !bench.same_strand(&bench_alone, seat) {
            return Err(format!("seat {seat}: another strand"));
        }
        let history: Vec<(&Call, &Answer)> = own.collect();
        held(&history, &bench, seat)?;
        compared += alone.len();
    }
    Ok(compared)
}

fn call_of(event: &Event) -> Option<Call> {
    match event {
        Event::Call(call) => Some(call.clone()),
        Event::Poke(_) => None,
    }
}

/// The answers and the bench after them, with garbage in the work area at each call.
fn run(maker: Maker, calls: &[Call], seed: u64) -> (Vec<Answer>, Bench) {
    let mut rng = Rng::new(seed);
    let mut machine = maker();
    let mut bench = Bench::new();
    let mut work = vec![0.0; WORK + SPARE];
    let mut answer = |call: &Call| {
        garbage(&mut rng, &mut work);
        perform(&mut *machine, &mut bench, &mut work, call)
    };
    let answers = calls.iter().map(&mut answer).collect();
    (answers, bench)
}

/// The position numbers of the load that filled the seat, which of them are pinned now, and which were
/// pinned at every step since.
#[derive(Default)]
struct Held {
    loaded: Vec<f64>,
    pinned: Vec<bool>,
    always: Vec<bool>,
}

/// A component that was pinned at every accepted step since the load stands where the load put it.
fn held(history: &[(&Call, &Answer)], bench: &Bench, seat: usize) -> Result<(), String> {
    let mut held = Held::default();
    for (call, answer) in history {
        if answer.refusal() == Some(0) {
            held.note(&call.request);
        }
    }
    for (i, x) in held.loaded.iter().enumerate() {
        if held.always[i] && bench.drape[384 * seat + i].to_bits() != x.to_bits() {
            return Err(format!("seat {seat}: pinned number {i} moved"));
        }
    }
    Ok(())
}

impl Held {
    fn note(&mut self, request: &Request) {
        match request {
            Request::Load { positions, .. } => {
                self.loaded = positions.clone();
                self.pinned = vec![false; positions.len()];
                self.always = vec![true; positions.len()];
            }
            Request::Unload => *self = Held::default(),
            Request::Pin {
                vertex,
                component,
                byte,
            } => {
                let place = 3 * vertex + component;
                let is_position = *component < 3 && place < self.pinned.len();
                if is_position {
                    self.pinned[place] = *byte != 0;
                }
            }
            Request::Static(_) | Request::Dynamic(..) => {
                for (always, pinned) in self.always.iter_mut().zip(&self.pinned) {
                    *always &= pinned;
                }
            }
            _ => {}
        }
    }
}
