//! Document 01's checked examples of the bench, and strands at the edge of a refusal.

use bench::Reference;
use machine::{perform, Answer, Bench, Call, Lengths, Request, Settings, StepNumbers, WORK};

const X: [f64; 6] = [0.0, 0.0, 0.0, 1.0, 0.0, 0.0];
const F: [f64; 6] = [0.0, 1.0, 0.0, 0.0, 1.0, 0.0];

fn ask(bench: &mut Bench, seat: usize, request: Request) -> Answer {
    let call = Call {
        seat,
        lent: Lengths::default(),
        request,
    };
    perform(&mut Reference, bench, &mut [f64::NAN; WORK], &call)
}

fn load(n: usize, positions: &[f64], frames: &[f64], conv_ratio: f64) -> Request {
    Request::Load {
        n,
        settings: Settings {
            conv_ratio,
            ..Settings::default()
        },
        positions: positions.to_vec(),
        frames: frames.to_vec(),
    }
}

/// The bench with the examples' strand on a seat.
fn loaded(seat: usize, conv_ratio: f64) -> Bench {
    let mut bench = Bench::new();
    let answer = ask(&mut bench, seat, load(2, &X, &F, conv_ratio));
    assert_eq!(answer.refusal(), Some(0));
    bench
}

fn step(bench: &mut Bench, seat: usize, request: Request) -> StepNumbers {
    match ask(bench, seat, request) {
        Answer::Step(numbers) => numbers,
        _ => unreachable!(),
    }
}

/// Of a static step with a pick on vertex 1, for a ratio of 1/1024.
fn picked(goal: [f64; 3]) -> (StepNumbers, Bench) {
    let mut bench = loaded(0, 1.0 / 1024.0);
    let numbers = step(&mut bench, 0, Request::Static(Some((1, goal))));
    (numbers, bench)
}

#[test]
fn p7() {
    let (numbers, bench) = picked([0.5, 0.0, 0.0]);
    assert_eq!((numbers.refusal, numbers.count), (0, 1));
    assert_eq!((numbers.energy, numbers.ratio), (0.0, 0.0));
    assert_eq!(bench.drape[..6], [0.0, 0.0, 0.0, 0.5, 0.0, 0.0]);
}

#[test]
fn p8_and_p9() {
    assert_eq!(picked([0.0, 0.0, 0.0]).0.refusal, 11);
    assert_eq!(picked([-1.0, 0.0, 0.0]).0.refusal, 10);
}

#[test]
fn ratio_limit_0() {
    let mut bench = loaded(5, 0.0);
    let pick = Some((1, [0.5, 0.0, 0.0]));
    assert_eq!(step(&mut bench, 5, Request::Static(pick)).refusal, 9);
}

#[test]
fn p10() {
    let mut bench = loaded(0, 1.0 / 1024.0);
    for component in 0..3 {
        let pin = Request::Pin {
            vertex: 1,
            component,
            byte: 1,
        };
        assert_eq!(ask(&mut bench, 0, pin).refusal(), Some(0));
    }
    let pick = Some((1, [0.5, 0.0, 0.0]));
    let numbers = step(&mut bench, 0, Request::Static(pick));
    assert_eq!((numbers.refusal, numbers.count), (0, 0));
    assert_eq!(bench.drape[..6], X);
}

/// n = 1 or 33 is 4, 32 loads; seat 6 is 2, seat 5 works.
#[test]
fn counts_and_seats() {
    let mut bench = Bench::new();
    for (n, expected) in [(0, 4), (1, 4), (2, 0), (32, 0), (33, 4)] {
        let positions: Vec<f64> = (0..3 * n).map(|i| i as f64).collect();
        let request = load(n, &positions, &positions, 0.1);
        assert_eq!(ask(&mut bench, 5, request).refusal(), Some(expected));
        ask(&mut bench, 5, Request::Unload);
    }
    assert_eq!(ask(&mut bench, 6, load(2, &X, &F, 0.1)).refusal(), Some(2));
}

/// 1 + c = 2^-20 passes, the next strand does not.
#[test]
fn least_turn() {
    let goal = |bits: [u64; 3]| bits.map(f64::from_bits);
    let at = [0xBFEFFFFE00000000, 0x3F56A09E0BFCC17E, 0];
    let below = [0xBFEFFFFE00000002, 0x3F56A09E0BF1712E, 0];
    assert_eq!(picked(goal(at)).0.refusal, 0);
    assert_eq!(picked(goal(below)).0.refusal, 10);
}

/// p times Ap is an infinity, so nothing moves, and the solve runs to its limit.
#[test]
fn infinite_product() {
    let mut bench = loaded(0, 1.0 / 1024.0);
    let pick = Some((1, [-6249.0, 0.0, 0.0]));
    let numbers = step(&mut bench, 0, Request::Dynamic(pick, 1e-150));
    assert_eq!((numbers.refusal, numbers.count), (0, 1000));
    assert_eq!(numbers.ratio, 1.0);
}

/// Steps that tell three numbers apart: energy, count and ratio, as bits. host/tests/bench.rs and tests/c/calls.c have
/// the same strand and steps.
#[test]
fn a_bent_strand() {
    let load = Request::Load {
        n: 3,
        settings: Settings::from_numbers([2.0, 0.5, 0.75, 1.25, 1.0 / 1024.0]),
        positions: vec![0.0, 0.0, 0.0, 1.0, 0.0, 0.0, 1.0, 1.0, 0.0],
        frames: [0.0, 0.0, 1.0].repeat(3),
    };
    let pick = Some((2, [1.25, 1.5, 0.5]));
    let steps = [
        Request::Static(pick),
        Request::Dynamic(pick, 0.25),
        Request::Static(None),
    ];
    let expected = [
        (0, 8, 0x3D2DA996479375EC),
        (0x3F61FF983EB8BEFC, 9, 0x3EF3871252FC7AA6),
        (0x3F5B9FB7B6F3C05E, 5, 0x3F107DEBCEE40DDC),
    ];
    let mut bench = Bench::new();
    assert_eq!(ask(&mut bench, 3, load).refusal(), Some(0));
    let told = steps.map(|request| {
        let numbers = step(&mut bench, 3, request);
        let [energy, ratio] = [numbers.energy, numbers.ratio].map(f64::to_bits);
        assert_eq!(numbers.refusal, 0);
        (energy, numbers.count, ratio)
    });
    assert_eq!(told, expected);
}
