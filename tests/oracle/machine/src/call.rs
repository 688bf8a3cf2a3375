//! Calls as values, and how one is made.

use crate::{same, same_all, Areas, Bench, Load, Looked, Machine, Pick, Record, Settings};
use crate::{StepNumbers, Stepped, DRAPE, PINS, REST, WORK};

#[derive(Clone, Debug)]
pub enum Request {
    Load {
        n: usize,
        settings: Settings,
        positions: Vec<f64>,
        frames: Vec<f64>,
    },
    Unload,
    Pin {
        vertex: usize,
        component: usize,
        byte: u8,
    },
    Look(usize),
    Companion(usize),
    Static(Pick),
    Dynamic(Pick, f64),
}

/// How long the areas are that a call is lent.
#[derive(Clone, Copy, Debug)]
pub struct Lengths {
    pub rest: usize,
    pub drape: usize,
    pub pins: usize,
    pub work: usize,
}

impl Default for Lengths {
    fn default() -> Lengths {
        Lengths {
            rest: REST,
            drape: DRAPE,
            pins: PINS,
            work: WORK,
        }
    }
}

#[derive(Clone, Debug)]
pub struct Call {
    pub seat: usize,
    pub lent: Lengths,
    pub request: Request,
}

/// The numbers that a look hands back, and where they stand.
#[derive(Clone, Debug)]
pub struct Shown {
    pub numbers: Vec<f64>,
    /// Whether in the rest, and the place there; of no numbers there is none.
    pub place: Option<(bool, usize)>,
}

#[derive(Clone, Debug)]
pub enum Answer {
    Number(u8),
    Shown(Shown),
    Step(StepNumbers),
}

impl Answer {
    pub fn same(&self, other: &Answer) -> bool {
        match (self, other) {
            (Answer::Number(a), Answer::Number(b)) => a == b,
            (Answer::Shown(a), Answer::Shown(b)) => {
                a.place == b.place && same_all(&a.numbers, &b.numbers)
            }
            (Answer::Step(a), Answer::Step(b)) => {
                (a.refusal, a.count) == (b.refusal, b.count)
                    && same(a.energy, b.energy)
                    && same(a.ratio, b.ratio)
            }
            _ => false,
        }
    }

    /// The number of a refusal, 0 for none; a look's answer does not tell it.
    pub fn refusal(&self) -> Option<u8> {
        match self {
            Answer::Number(k) => Some(*k),
            Answer::Shown(_) => None,
            Answer::Step(numbers) => Some(numbers.refusal),
        }
    }
}

/// Makes the call. Of the work area, which the caller keeps longer than any that is lent, the first
/// numbers are lent.
pub fn perform(m: &mut dyn Machine, bench: &mut Bench, work: &mut [f64], call: &Call) -> Answer {
    let seat = call.seat;
    let work = &mut work[..call.lent.work];
    let (record, areas) = lend(bench, &call.lent);
    match &call.request {
        Request::Load { .. } => Answer::Number(load(m, record, areas, call)),
        Request::Unload => Answer::Number(m.unload(record, areas, seat)),
        Request::Pin {
            vertex,
            component,
            byte,
        } => Answer::Number(m.pin(record, areas.pins, seat, (*vertex, *component), *byte)),
        Request::Look(kind) => {
            let areas = looked(areas);
            Answer::Shown(shown(m.look(record, areas, seat, *kind), areas))
        }
        Request::Companion(kind) => Answer::Number(m.companion(record, looked(areas), seat, *kind)),
        Request::Static(pick) => {
            Answer::Step(m.step_static(record, stepped(areas, work), seat, *pick))
        }
        Request::Dynamic(pick, dt) => {
            Answer::Step(m.step_dynamic(record, stepped(areas, work), seat, *pick, *dt))
        }
    }
}

fn load(m: &mut dyn Machine, record: &mut Record, areas: Areas, call: &Call) -> u8 {
    let Request::Load {
        n,
        settings,
        ref positions,
        ref frames,
    } = call.request
    else {
        unreachable!("asked for loads only")
    };
    let load = Load {
        n,
        settings,
        positions,
        frames,
    };
    m.load(record, areas, call.seat, load)
}

fn lend<'a>(bench: &'a mut Bench, lent: &Lengths) -> (&'a mut Record, Areas<'a>) {
    let areas = Areas {
        rest: &mut bench.rest[..lent.rest],
        drape: &mut bench.drape[..lent.drape],
        pins: &mut bench.pins[..lent.pins],
    };
    (&mut bench.record, areas)
}

fn looked(areas: Areas<'_>) -> Looked<'_> {
    Looked {
        rest: areas.rest,
        drape: areas.drape,
    }
}

fn stepped<'a>(areas: Areas<'a>, work: &'a mut [f64]) -> Stepped<'a> {
    Stepped {
        rest: areas.rest,
        drape: areas.drape,
        pins: areas.pins,
        work,
    }
}

/// A part of an area lies in it: its first number is that of the area at some place.
fn shown(part: &[f64], areas: Looked) -> Shown {
    let place_in = |area: &[f64]| {
        let (first, start) = (part.as_ptr() as usize, area.as_ptr() as usize);
        let inside = start <= first && first + 8 * part.len() <= start + 8 * area.len();
        inside.then(|| (first - start) / 8)
    };
    let place = match part.is_empty() {
        true => None,
        false => {
            let in_rest = place_in(areas.rest).map(|i| (true, i));
            in_rest.or_else(|| place_in(areas.drape).map(|i| (false, i)))
        }
    };
    Shown {
        numbers: part.to_vec(),
        place,
    }
}
