//! Every call with every set of reasons to decline it, as far as they need no solve: which number
//! comes first.

use crate::Event;
use machine::{Call, Lengths, Pick, Poke, Request, Settings};

/// The seat that is called, unless it is none.
const SEAT: usize = 3;

/// Reasons to decline a call.
#[derive(Clone, Copy)]
struct Reasons {
    record: bool,
    length: bool,
    seat: bool,
    /// Taken for a load, empty for others.
    taken: bool,
    /// The count of a load, the vertex or the kind of others.
    place: bool,
    number: bool,
    edge: bool,
}

const NAMES: [&str; 7] = [
    "load",
    "unload",
    "pin",
    "look",
    "companion",
    "static",
    "dynamic",
];

/// For each call and each set of reasons: what goes before, and the call.
pub fn crossings() -> Vec<(String, Vec<Event>)> {
    let sets = (0..NAMES.len()).flat_map(|kind| (0..128).map(move |set| (kind, set)));
    sets.map(|(kind, set)| (format!("{} {set:07b}", NAMES[kind]), crossing(kind, set)))
        .collect()
}

fn crossing(kind: usize, set: u32) -> Vec<Event> {
    let has = |i: u32| set >> i & 1 == 1;
    let reasons = Reasons {
        record: has(0),
        length: has(1),
        seat: has(2),
        taken: has(3),
        place: has(4),
        number: has(5),
        edge: has(6),
    };
    let mut events = vec![];
    let is_load = kind == 0;
    if reasons.taken == is_load {
        events.push(on(SEAT, Lengths::default(), strand(2, 1.0, 0.25)));
    }
    if reasons.edge && !is_load {
        events.push(Event::Poke(Poke::Drape(384 * SEAT + 3, 0.0)));
    }
    if reasons.record {
        events.push(Event::Poke(Poke::Count(1, 33)));
    }
    let seat = if reasons.seat { 6 } else { SEAT };
    events.push(on(
        seat,
        lengths(kind, reasons.length),
        request(kind, reasons),
    ));
    events
}

fn on(seat: usize, lent: Lengths, request: Request) -> Event {
    Event::Call(Call {
        seat,
        lent,
        request,
    })
}

/// Of an area that the call is lent.
fn lengths(kind: usize, other: bool) -> Lengths {
    let mut lent = Lengths::default();
    if other {
        match kind {
            2 => lent.pins -= 1,
            3 | 4 => lent.drape += 1,
            5 | 6 => lent.work -= 1,
            _ => lent.rest += 1,
        }
    }
    lent
}

fn request(kind: usize, reasons: Reasons) -> Request {
    let number = if reasons.number { f64::INFINITY } else { 0.25 };
    match kind {
        0 => strand(
            if reasons.place { 33 } else { 2 },
            if reasons.edge { 0.0 } else { 1.0 },
            number,
        ),
        1 => Request::Unload,
        2 => Request::Pin {
            vertex: if reasons.place { 2 } else { 1 },
            component: 0,
            byte: 1,
        },
        3 => Request::Look(if reasons.place { 5 } else { 4 }),
        4 => Request::Companion(if reasons.place { 5 } else { 4 }),
        5 => Request::Static(pick(reasons, number)),
        _ => Request::Dynamic(pick(reasons, 0.25), number),
    }
}

fn pick(reasons: Reasons, number: f64) -> Pick {
    let vertex = if reasons.place { 2 } else { 1 };
    Some((vertex, [0.75, number, 0.5]))
}

/// Along the first axis; the number stands in its last frame.
fn strand(n: usize, edge: f64, number: f64) -> Request {
    let positions = (0..n).flat_map(|i| [edge * i as f64, 0.0, 0.0]);
    let mut frames = [0.0, 1.0, 0.0].repeat(n);
    frames[3 * n - 1] = number;
    Request::Load {
        n,
        settings: Settings::from_numbers([0.7, 1.3, 0.9, 1.1, 0.01]),
        positions: positions.collect(),
        frames,
    }
}
