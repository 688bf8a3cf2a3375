//! Calls on the bench and their answers as values, so that they can be made again and compared.

use crate::script::Laid;
use hairbench::{Bench, Component, Kind, Pick, Refusal, StepReport, Strand};

#[derive(Clone, Debug)]
pub enum Call {
    Load(Laid),
    Unload,
    Pin { vertex: usize, component: Component, pinned: bool },
    Look(Kind),
    Static(Option<Pick>),
    Dynamic(Option<Pick>, f64),
}

/// What an accepted call answers.
#[derive(Clone, Debug)]
pub enum Told {
    Nothing,
    Step(StepReport),
    Numbers(Vec<f64>),
}

pub type Answer = Result<Told, Refusal>;

/// A call that was made, with its answer.
#[derive(Clone, Debug)]
pub struct Made {
    pub seat: usize,
    pub call: Call,
    pub answer: Answer,
}

pub fn perform(bench: &mut Bench, seat: usize, call: &Call) -> Answer {
    match call {
        Call::Load(Laid { positions, frames, settings }) => {
            let strand = Strand { n: positions.len() / 3, settings: *settings, positions, frames };
            bench.load(seat, &strand).map(|()| Told::Nothing)
        }
        Call::Unload => bench.unload(seat).map(|()| Told::Nothing),
        Call::Pin { vertex, component, pinned } => {
            bench.pin(seat, *vertex, *component, *pinned).map(|()| Told::Nothing)
        }
        Call::Look(kind) => bench.look(seat, *kind).map(|numbers| Told::Numbers(numbers.to_vec())),
        Call::Static(pick) => bench.step_static(seat, *pick).map(Told::Step),
        Call::Dynamic(pick, dt) => bench.step_dynamic(seat, *pick, *dt).map(Told::Step),
    }
}

/// An answer's bits: the refusal's number, 0 for none, and the numbers told.
pub fn bits(answer: &Answer) -> Vec<u64> {
    match answer {
        Err(refusal) => vec![refusal.number() as u64],
        Ok(Told::Nothing) => vec![0],
        Ok(Told::Step(r)) => vec![0, r.energy.to_bits(), r.count as u64, r.ratio.to_bits()],
        Ok(Told::Numbers(numbers)) => std::iter::once(0).chain(numbers.iter().map(|x| x.to_bits())).collect(),
    }
}
