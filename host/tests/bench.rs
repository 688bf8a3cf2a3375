//! The wrapper on document 01's examples and a bent strand: energy, count, ratio, refusals, and that a refused call leaves
//! everything.

use hairbench::{Bench, Component, Kind, Pick, Refusal, Settings, StepReport, Strand, SEATS};

const SETTINGS: Settings = Settings { stiff_length: 0.0, stiff_bendtwist: [0.0; 3], conv_ratio: 1.0 / 1024.0 };
const POSITIONS: [f64; 6] = [0.0, 0.0, 0.0, 1.0, 0.0, 0.0];
const FRAMES: [f64; 6] = [0.0, 1.0, 0.0, 0.0, 1.0, 0.0];
const EDGE: Strand = Strand { n: 2, settings: SETTINGS, positions: &POSITIONS, frames: &FRAMES };

fn loaded(seat: usize) -> Bench {
    let mut bench = Bench::new();
    bench.load(seat, &EDGE).expect("an empty seat and a good strand");
    bench
}

fn pull(goal: [f64; 3]) -> Option<Pick> {
    Some(Pick { vertex: 1, goal })
}

/// Everything that the bench keeps.
fn kept(bench: &Bench) -> Vec<Option<Vec<u64>>> {
    (0..SEATS).map(|seat| bench.strand_bits(seat)).collect()
}

/// Makes a call that is to be refused, and checks that it left everything.
fn refused<T: std::fmt::Debug>(bench: &mut Bench, call: impl FnOnce(&mut Bench) -> Result<T, Refusal>) -> Refusal {
    let before = kept(bench);
    let refusal = call(bench).map(|_| ()).expect_err("a refusal");
    assert_eq!(kept(bench), before);
    refusal
}

/// A straight strand along x.
fn straight(n: usize) -> (Vec<f64>, Vec<f64>) {
    let positions = (0..n).flat_map(|i| [i as f64, 0.0, 0.0]).collect();
    (positions, [0.0, 1.0, 0.0].repeat(n))
}

#[test]
fn p7_a_vertex_follows_its_pick() {
    let mut bench = loaded(0);
    let step = bench.step_static(0, pull([0.5, 0.0, 0.0]));
    assert_eq!(step, Ok(StepReport { energy: 0.0, count: 1, ratio: 0.0 }));
    let expected: &[f64] = &[0.0, 0.0, 0.0, 0.5, 0.0, 0.0];
    assert_eq!(bench.look(0, Kind::DrapePositions), Ok(expected));
    assert_eq!(bench.look(0, Kind::RestPositions), Ok(&POSITIONS[..]));
}

#[test]
fn p8_an_edge_that_vanishes() {
    let refusal = refused(&mut loaded(0), |b| b.step_static(0, pull([0.0; 3])));
    assert_eq!(refusal, Refusal::DrapeNotFinite);
}

#[test]
fn p9_an_edge_that_turns_back() {
    let refusal = refused(&mut loaded(0), |b| b.step_static(0, pull([-1.0, 0.0, 0.0])));
    assert_eq!(refusal, Refusal::Turn);
}

#[test]
fn p10_a_pinned_vertex_stays() {
    let mut bench = loaded(0);
    for component in [Component::X, Component::Y, Component::Z] {
        assert_eq!(bench.pin(0, 1, component, true), Ok(()));
        assert!(bench.is_pinned(0, 1, component));
    }
    let step = bench.step_static(0, pull([0.5, 0.0, 0.0]));
    assert_eq!(step, Ok(StepReport { energy: 0.0, count: 0, ratio: 0.0 }));
    assert_eq!(bench.look(0, Kind::DrapePositions), Ok(&POSITIONS[..]));
}

/// Energy, count and ratio as the unchanged Rust has them (tests/oracle/bench/tests/examples.rs), bit for bit.
#[test]
fn a_bent_strand() {
    let settings = Settings { stiff_length: 2.0, stiff_bendtwist: [0.5, 0.75, 1.25], conv_ratio: 1.0 / 1024.0 };
    let positions = [0.0, 0.0, 0.0, 1.0, 0.0, 0.0, 1.0, 1.0, 0.0];
    let frames = [0.0, 0.0, 1.0].repeat(3);
    let mut bench = Bench::new();
    bench.load(3, &Strand { n: 3, settings, positions: &positions, frames: &frames }).expect("a good strand");
    let pick = Some(Pick { vertex: 2, goal: [1.25, 1.5, 0.5] });
    let told = |step: Result<StepReport, Refusal>| {
        let StepReport { energy, count, ratio } = step.expect("an accepted step");
        (energy.to_bits(), count, ratio.to_bits())
    };
    assert_eq!(told(bench.step_static(3, pick)), (0, 8, 0x3D2DA996479375EC));
    assert_eq!(told(bench.step_dynamic(3, pick, 0.25)), (0x3F61FF983EB8BEFC, 9, 0x3EF3871252FC7AA6));
    assert_eq!(told(bench.step_static(3, None)), (0x3F5B9FB7B6F3C05E, 5, 0x3F107DEBCEE40DDC));
    assert_eq!(bench.settings(3), Some(settings));
}

#[test]
fn a_solve_that_divides_0_by_0() {
    let mut bench = Bench::new();
    let settings = Settings { conv_ratio: 0.0, ..SETTINGS };
    bench.load(0, &Strand { settings, ..EDGE }).expect("a ratio of 0 is allowed");
    let refusal = refused(&mut bench, |b| b.step_static(0, pull([0.5, 0.0, 0.0])));
    assert_eq!(refusal, Refusal::Solution);
}

#[test]
fn a_strand_has_2_to_32_vertices() {
    for (n, answer) in [(1, Err(Refusal::Count)), (2, Ok(())), (32, Ok(())), (33, Err(Refusal::Count))] {
        let (positions, frames) = straight(n);
        let strand = Strand { n, settings: SETTINGS, positions: &positions, frames: &frames };
        assert_eq!(Bench::new().load(0, &strand), answer, "{n} vertices");
    }
    let refusal = refused(&mut Bench::new(), |b| b.load(0, &Strand { frames: &FRAMES[..5], ..EDGE }));
    assert_eq!(refusal, Refusal::Count);
}

#[test]
fn the_last_seat_works_and_the_next_is_none() {
    let mut bench = loaded(5);
    assert_eq!(bench.count(5), 2);
    assert_eq!(bench.settings(5), Some(SETTINGS));
    assert_eq!(refused(&mut bench, |b| b.load(6, &EDGE)), Refusal::NoSuchSeat);
    assert_eq!(refused(&mut bench, |b| b.step_static(usize::MAX, None)), Refusal::NoSuchSeat);
    assert_eq!((bench.count(6), bench.settings(6)), (0, None));
}

#[test]
fn taken_and_empty_seats() {
    let mut bench = loaded(2);
    assert_eq!(refused(&mut bench, |b| b.load(2, &EDGE)), Refusal::SeatState);
    assert_eq!(refused(&mut bench, |b| b.unload(1)), Refusal::SeatState);
    assert_eq!(refused(&mut bench, |b| b.step_dynamic(1, None, 0.1)), Refusal::SeatState);
    assert_eq!(bench.look(1, Kind::Velocities), Err(Refusal::SeatState));
    assert_eq!(bench.unload(2), Ok(()));
    assert_eq!(kept(&bench), kept(&Bench::new()));
}

#[test]
fn vertices_numbers_and_edges() {
    let mut bench = loaded(0);
    assert_eq!(refused(&mut bench, |b| b.pin(0, 2, Component::Twist, true)), Refusal::Index);
    let far = Some(Pick { vertex: 2, goal: [0.0; 3] });
    assert_eq!(refused(&mut bench, |b| b.step_static(0, far)), Refusal::Index);
    assert_eq!(refused(&mut bench, |b| b.step_static(0, pull([f64::NAN, 0.0, 0.0]))), Refusal::Number);
    assert_eq!(refused(&mut bench, |b| b.step_dynamic(0, None, 0.0)), Refusal::Number);
    assert_eq!(refused(&mut bench, |b| b.load(1, &Strand { positions: &[0.0; 6], ..EDGE })), Refusal::Edge);
    assert_eq!(refused(&mut bench, |b| b.step_static(0, pull([1.0e308, 0.0, 0.0]))), Refusal::System);
}

#[test]
fn what_the_work_area_holds_changes_nothing() {
    let (positions, frames) = straight(9);
    let settings = Settings { stiff_length: 2.0, stiff_bendtwist: [0.5; 3], conv_ratio: 1.0e-10 };
    let strand = Strand { n: 9, settings, positions: &positions, frames: &frames };
    let run = |garbage: &[f64]| {
        let mut bench = Bench::new();
        bench.load(4, &strand).expect("a good strand");
        bench.pin(4, 0, Component::X, true).expect("a vertex");
        let mut steps = vec![];
        for k in 0..6 {
            let held = garbage.iter().cycle();
            bench.work_mut().iter_mut().zip(held).for_each(|(w, g)| *w = *g);
            let pick = Some(Pick { vertex: 8, goal: [8.0, 3.0, 1.0] });
            steps.push(if k % 2 == 0 { bench.step_dynamic(4, pick, 0.25) } else { bench.step_static(4, pick) });
        }
        (steps, bench.strand_bits(4))
    };
    let clean = run(&[0.0]);
    assert!(clean.0.iter().all(|step| step.is_ok_and(|s| s.count > 0)));
    assert_eq!(run(&[f64::NAN, f64::INFINITY, f64::NEG_INFINITY, -0.0, 1.0e308]), clean);
}
