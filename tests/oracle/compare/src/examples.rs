//! Lists made by hand: document 01's examples, and what random lists meet too seldom.

use crate::Event;
use machine::{Call, Lengths, Poke, Request, Settings};

const X: [f64; 6] = [0.0, 0.0, 0.0, 1.0, 0.0, 0.0];
const F: [f64; 6] = [0.0, 1.0, 0.0, 0.0, 1.0, 0.0];

/// The seat of the examples.
const SEAT: usize = 2;

fn on(seat: usize, request: Request) -> Event {
    Event::Call(Call {
        seat,
        lent: Lengths::default(),
        request,
    })
}

fn strand(positions: &[f64], frames: &[f64], settings: [f64; 5]) -> Event {
    let request = Request::Load {
        n: positions.len() / 3,
        settings: Settings::from_numbers(settings),
        positions: positions.to_vec(),
        frames: frames.to_vec(),
    };
    on(SEAT, request)
}

/// The examples' strand, of stiffness 0.
fn load(ratio: f64) -> Event {
    strand(&X, &F, [0.0, 0.0, 0.0, 0.0, ratio])
}

fn still(goal: [f64; 3]) -> Event {
    on(SEAT, Request::Static(Some((1, goal))))
}

fn pin(vertex: usize, component: usize, byte: u8) -> Event {
    let request = Request::Pin {
        vertex,
        component,
        byte,
    };
    on(SEAT, request)
}

/// A number of the seat's drape: part 0 positions, 1 frames, 2 velocities, 3 the working copy.
fn poke(part: usize, place: usize, x: f64) -> Event {
    Event::Poke(Poke::Drape(384 * SEAT + 96 * part + place, x))
}

pub fn examples() -> Vec<(&'static str, Vec<Event>)> {
    [turns(), solves(), refusals(), overflows(), times(), areas()].concat()
}

const RATIO: f64 = 1.0 / 1024.0;

fn turns() -> Vec<(&'static str, Vec<Event>)> {
    let goal = |x: u64, y: u64| [f64::from_bits(x), f64::from_bits(y), 0.0];
    let least = goal(0xBFEFFFFE00000000, 0x3F56A09E0BFCC17E);
    let below = goal(0xBFEFFFFE00000002, 0x3F56A09E0BF1712E);
    let half = [0.5, 0.0, 0.0];
    let about = [-1.0, 0.0, 0.0];
    vec![
        ("P7", vec![load(RATIO), still(half)]),
        ("P8", vec![load(RATIO), still([0.0; 3])]),
        ("P9", vec![load(RATIO), still(about)]),
        (
            "P9, twist pinned",
            vec![load(RATIO), pin(0, 3, 9), still(about)],
        ),
        ("1 + c = 2^-20", vec![load(RATIO), still(least)]),
        ("1 + c below 2^-20", vec![load(RATIO), still(below)]),
        (
            "P10",
            vec![
                load(RATIO),
                pin(1, 0, 1),
                pin(1, 1, 2),
                pin(1, 2, 255),
                still(half),
            ],
        ),
    ]
}

fn solves() -> Vec<(&'static str, Vec<Event>)> {
    let start = [1.0 + 2f64.powi(-30), 0.0, 0.0];
    let dynamic = on(
        SEAT,
        Request::Dynamic(Some((1, [-6249.0, 0.0, 0.0])), 1e-150),
    );
    let short = [0.0, 0.0, 0.0, 1e-109, 0.0, 0.0];
    let far = [1.5e307, 0.0, 0.0, 1.5e307, 1.0, 0.0];
    let frames = [0.0, 0.0, 1.0, 0.0, 0.0, 1.0];
    vec![
        ("ratio limit 0", vec![load(0.0), still([0.5, 0.0, 0.0])]),
        ("a start of 2^-52", vec![load(RATIO), still(start)]),
        ("p times Ap infinite", vec![load(RATIO), dynamic]),
        (
            "an edge whose cube is 0",
            vec![
                strand(&short, &F, [0.0; 5]),
                on(SEAT, Request::Static(None)),
            ],
        ),
        (
            "far from the origin",
            vec![
                strand(&far, &frames, [0.0, 0.0, 0.0, 0.0, RATIO]),
                still([1.5e307, 0.5, 0.0]),
            ],
        ),
    ]
}

fn refusals() -> Vec<(&'static str, Vec<Event>)> {
    let about = still([-1.0, 0.0, 0.0]);
    let half = still([0.5, 0.0, 0.0]);
    vec![
        ("10 and 11", vec![load(RATIO), poke(2, 4, f64::NAN), about]),
        (
            "a velocity not finite",
            vec![load(RATIO), poke(2, 4, f64::INFINITY), half.clone()],
        ),
        (
            "the last frame not finite",
            vec![load(RATIO), poke(1, 5, f64::NAN), half.clone()],
        ),
        (
            "a working copy not finite",
            vec![load(RATIO), poke(3, 4, f64::NAN), half],
        ),
        (
            "6 and 7",
            vec![load(RATIO), poke(0, 3, 0.0), still([f64::NAN, 0.0, 0.0])],
        ),
        (
            "8 of a pinned gradient",
            vec![load(RATIO), pin(1, 0, 1), still([1e308, 0.0, 0.0])],
        ),
        ("-0", vec![strand(&X, &F, [-0.0; 5])]),
    ]
}

fn overflows() -> Vec<(&'static str, Vec<Event>)> {
    let stretched = [
        strand(&X, &F, [3.0, 0.0, 0.0, 0.0, RATIO]),
        poke(0, 3, 1.2e154),
        on(SEAT, Request::Static(None)),
    ];
    vec![
        ("only the energy overflows", stretched.to_vec()),
        ("9 and 10", infinite_solution()),
    ]
}

/// Vertex 1 has no stiffness along y: the pressed edge 0 takes what the stretched edge 1 gives. So one
/// iteration makes its y an infinity, while residual and ratio stay finite. By the same factor vertex
/// 3 goes through vertex 2, and edge 2 turns about.
fn infinite_solution() -> Vec<Event> {
    let two = |e: i32| 2f64.powi(e);
    let points =
        |x: f64, y: f64, z: f64| [[0.0; 3], [x, 0.0, 0.0], [x, y, 0.0], [x, y, z]].concat();
    let rest = points(3.0 * two(184), two(509), two(-100) - two(-153));
    let drape = points(two(185), two(510), two(-100));
    let frames = [[0.0, 0.0, 1.0], [0.0, 0.0, 1.0], [1.0, 0.0, 0.0], [0.0; 3]].concat();
    let mut events = vec![strand(&rest, &frames, [two(-332), 0.0, 0.0, 0.0, 1e300])];
    for (i, x) in drape.into_iter().enumerate() {
        events.push(poke(0, i, x));
        if ![3, 4, 11].contains(&i) {
            events.push(pin(i / 3, i % 3, 1));
        }
    }
    events.push(on(SEAT, Request::Static(None)));
    events
}

/// Times at the ends of what is taken.
fn times() -> Vec<(&'static str, Vec<Event>)> {
    let times = [
        0.0,
        -0.0,
        -0.5,
        f64::NAN,
        f64::INFINITY,
        5e-324,
        1e-160,
        1e160,
        f64::MAX,
    ];
    let step = |dt: f64| on(SEAT, Request::Dynamic(Some((1, [0.5, 0.25, 0.0])), dt));
    vec![(
        "times",
        [load(RATIO)].into_iter().chain(times.map(step)).collect(),
    )]
}

fn areas() -> Vec<(&'static str, Vec<Event>)> {
    let other = Event::Poke(Poke::Setting(4, 1, f64::NAN));
    let rest = Event::Poke(Poke::Rest(192 * SEAT + 7, 3.5));
    let look = |kind| on(SEAT, Request::Look(kind));
    vec![
        (
            "an empty seat's settings",
            vec![other, load(RATIO), still([0.5, 0.0, 0.0])],
        ),
        (
            "numbers past n before a load",
            vec![rest, poke(2, 50, 2.5), load(RATIO), look(0), look(4)],
        ),
        (
            "unload",
            vec![load(RATIO), on(SEAT, Request::Unload), look(2)],
        ),
    ]
}
