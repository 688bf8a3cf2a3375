//! Stays of one strand, from its load on, and a strand with every area lent too short and too long.

use compare::rng::Rng;
use compare::shapes::{shape, Shape};
use compare::Event;
use machine::{Call, Lengths, Pick, Request, Settings};

/// Seat 0, which `lists` turns on.
fn on(request: Request) -> Event {
    lent(Lengths::default(), request)
}

fn lent(lent: Lengths, request: Request) -> Event {
    Event::Call(Call {
        seat: 0,
        lent,
        request,
    })
}

fn load(rng: &mut Rng, shape: &Shape, ratio: f64) -> Event {
    let mut numbers = [0; 5].map(|_| rng.between(0.3, 3.0));
    numbers[4] = ratio;
    if rng.chance(0.1) {
        numbers[rng.below(4)] = -0.0;
    }
    on(Request::Load {
        n: shape.positions.len() / 3,
        settings: Settings::from_numbers(numbers),
        positions: shape.positions.clone(),
        frames: shape.frames.clone(),
    })
}

/// Load, pins, a few steps of both kinds, a look. Some have a ratio that no solve gets below.
pub fn stay(seed: u64, n: usize) -> Vec<Event> {
    let mut rng = Rng::new(seed);
    let shape = shape(&mut rng, n);
    let ratio = rng.one_of(&[1e-3, 1e-5, 1e-9, 1e-30]);
    let held = rng.below(n);
    let mut events = vec![load(&mut rng, &shape, ratio)];
    for component in 0..1 + rng.below(4) {
        events.push(on(Request::Pin {
            vertex: held,
            component,
            byte: rng.one_of(&[1, 2, 7, 128, 255]),
        }));
    }
    for _ in 0..2 + rng.below(3) {
        let pick = pick(&mut rng, &shape, held);
        events.push(on(match rng.chance(0.5) {
            true => Request::Static(pick),
            false => Request::Dynamic(pick, rng.between(0.01, 0.4)),
        }));
    }
    events.push(on(Request::Look(rng.below(5))));
    events
}

/// Of the pinned vertex or another, near or far, or none.
fn pick(rng: &mut Rng, shape: &Shape, held: usize) -> Pick {
    let n = shape.positions.len() / 3;
    let other = rng.below(n);
    let vertex = rng.one_of(&[held, other, other, n]);
    let size = rng.one_of(&[0.05, 0.2, 0.2, 30.0]);
    let at = shape.positions.get(3 * vertex..3 * vertex + 3)?;
    let mut goal = [0, 1, 2].map(|i| at[i] + rng.between(-size, size));
    if rng.chance(0.1) {
        goal[rng.below(3)] = -0.0;
    }
    Some((vertex, goal))
}

/// Every call with each area that it is lent one place too short and some too long.
pub fn lengths() -> Vec<Event> {
    let mut rng = Rng::new(1);
    let shape = shape(&mut rng, 3);
    let first = load(&mut rng, &shape, 1e-3);
    let Event::Call(again) = first.clone() else {
        unreachable!("a load is a call")
    };
    let pin = Request::Pin {
        vertex: 1,
        component: 1,
        byte: 1,
    };
    let mut events = vec![first];
    for (request, areas) in [
        (again.request, 3),
        (Request::Unload, 3),
        (pin, 0),
        (Request::Look(2), 2),
        (Request::Companion(2), 2),
        (Request::Static(None), 4),
        (Request::Dynamic(None, 0.125), 4),
    ] {
        events.extend(wrong_lengths(areas).map(|wrong| lent(wrong, request.clone())));
    }
    events
}

/// Of the first so many areas, in the order rest, drape, pins, work; of the pins alone where it is 0.
fn wrong_lengths(areas: usize) -> impl Iterator<Item = Lengths> {
    let chosen = if areas == 0 { 2..3 } else { 0..areas };
    chosen.flat_map(|area| [false, true].map(|longer| wrong_length(area, longer)))
}

fn wrong_length(area: usize, longer: bool) -> Lengths {
    let mut lent = Lengths::default();
    let length = match area {
        0 => &mut lent.rest,
        1 => &mut lent.drape,
        2 => &mut lent.pins,
        _ => &mut lent.work,
    };
    match longer {
        true => *length += 1 + area,
        false => *length -= 1,
    }
    lent
}
