//! Scripts that are run: what is answered, held, drawn, and found by the solo runs.

use crate::calls::{Call, Told};
use crate::checks::{check_drawing, elements};
use crate::parse::parse;
use crate::run::Run;
use crate::script::Fault;
use crate::solo::{compare, line};
use hairbench::Kind;

const SMALL: &str = "\
unit mm
load 0 straight vertices=8 length=7
load 3 curl vertices=12 length=16 radius=1 turns=2
pin 0 0 all
pin 3 0 all
pick 0 7 4 -4 1
pick 3 11 3 -6 2
settle all steps=6
move 3 seconds=0.2
drop 0
";

fn run(text: &str) -> (Run, Result<(), Fault>) {
    let none = |file: &str| Err(format!("{file}: not there"));
    let statements = parse(text, &none).unwrap_or_else(|faults| panic!("{faults:?}"));
    let mut run = Run::new(true);
    let outcome = run.all(&statements);
    (run, outcome)
}

fn accepted(text: &str) -> Run {
    let (run, outcome) = run(text);
    assert_eq!(outcome, Ok(()));
    run
}

fn fault(text: &str) -> (usize, String) {
    let fault = run(text).1.expect_err("a refusal");
    (fault.line, fault.message)
}

fn picks(run: &Run) -> Vec<(usize, bool)> {
    let pick = |call: &Call| match call {
        Call::Static(pick) | Call::Dynamic(pick, _) => Some(pick.is_some()),
        _ => None,
    };
    run.made.iter().filter_map(|m| Some((m.seat, pick(&m.call)?))).collect()
}

#[test]
fn refusals_come_with_their_line() {
    let (line, message) = fault("load 0 straight\n# taken\nload 0 straight\n");
    assert_eq!(line, 3);
    assert!(message.starts_with("refused with 3:"), "{message}");
    assert_eq!(fault("settle 2").0, 1);
    assert!(fault("load 0 straight\npin 0 16 x").1.starts_with("refused with 5:"));
    assert!(fault("load 0 straight stretch=-1").1.starts_with("refused with 6:"));
    assert!(fault("load 0 straight\npick 0 16 1 1 1").1.starts_with("refused with 5:"));
    assert!(fault("pick 0 1 1 1 1").1.starts_with("refused with 3:"));
    assert_eq!(fault("load 1 straight\ndraw a.svg 0").0, 2);
    assert_eq!(fault("load 1 straight\nplay a.html 0").0, 2);
}

#[test]
fn a_pick_holds_until_it_is_dropped_or_the_strand_leaves() {
    let script =
        "load 0 straight\npin 0 0 all\npin 0 1 position\npick 0 15 3 -9 1\nsettle 0 steps=2\nmove 0 seconds=0.1\n";
    assert_eq!(picks(&accepted(script)), [(0, true); 5]);
    let dropped = picks(&accepted(&format!("{script}drop 0\nsettle 0 steps=1")));
    assert_eq!(dropped[5..], [(0, false)]);
    let another = picks(&accepted(&format!("{script}unload 0\nload 0 straight\nsettle 0 steps=1")));
    assert_eq!(another[5..], [(0, false)]);
}

#[test]
fn settling_ends_when_nothing_moves() {
    let run = accepted("load 0 straight\npin 0 0 all\nsettle 0 steps=50");
    assert_eq!(picks(&run).len(), 1);
    let run = accepted("load 0 straight\npin 0 0 all\nsettle 0 steps=50 tolerance=0");
    assert_eq!(picks(&run).len(), 50);
}

#[test]
fn all_steps_one_seat_after_the_other() {
    let run = accepted(SMALL);
    let seats: Vec<usize> = picks(&run).iter().map(|p| p.0).collect();
    assert_eq!(seats[..4], [0, 3, 0, 3]);
    assert_eq!(seats[seats.len() - 6..], [3; 6]);
}

#[test]
fn drawings_are_well_formed_on_the_sheet_and_readable() {
    let run =
        accepted(&format!("{SMALL}pick 0 7 4 -4 1\npin 0 3 x\ndraw all.svg all\ndraw one.svg 0\ndraw three.svg 3\n"));
    assert_eq!(run.outputs.len(), 3);
    for output in &run.outputs {
        check_drawing(&output.text);
    }
    let all = elements(&run.outputs[0].text).expect("well formed");
    let said = |text: &str| all.iter().filter(|e| e.name == "text" && e.text.contains(text)).count();
    assert_eq!((said("empty"), said(" mm"), said("front"), said("side")), (4, 2, 2, 2));
}

#[test]
fn drawings_show_rest_and_drape() {
    let run = accepted(&format!("{SMALL}draw one.svg 0\n"));
    let one = elements(&run.outputs[0].text).expect("well formed");
    let curves: Vec<_> = one.iter().filter(|e| e.name == "polyline").filter_map(|e| e.get("points")).collect();
    let long: Vec<_> = curves.iter().filter(|p| p.split(' ').count() == 8).collect();
    assert_eq!(long.len(), 4);
    assert_ne!(long[0], long[1]);
}

#[test]
fn many_pins_and_odd_units_are_drawn_too() {
    let pins: String = (0..32).map(|v| format!("pin 0 {v} all\n")).collect();
    let run =
        accepted(&format!("unit <&\">\nload 0 straight vertices=32\n{pins}settle 0\ndraw a.svg 0\ndraw b.svg all"));
    run.outputs.iter().for_each(|output| check_drawing(&output.text));
}

#[test]
fn pages_hold_every_step_and_nothing_from_elsewhere() {
    let run = accepted(&format!("unit </script>\n{SMALL}unit </script>\nplay one.html 3\nplay all.html all\n"));
    for output in &run.outputs {
        assert_eq!(output.text.matches("</script>").count(), 1);
        assert!(!output.text.contains("{{"));
        assert_eq!(output.text.matches("http").count(), 1, "only the name of SVG");
        assert!(!output.text.contains("src=") && !output.text.contains("href="));
    }
    let one = &run.outputs[0].text;
    assert!(one.contains("\"ticks\":13,"), "a load, six static steps and six dynamic ones");
    assert!(one.contains("[[0,13]]"));
    assert!(run.outputs[1].text.contains("\"seat\":5,\"room\":null,\"stays\":[]"));
}

#[test]
fn solo_runs_agree() {
    let run = accepted(SMALL);
    let verdicts = compare(&run.made, &run.bench);
    assert!(verdicts.iter().all(|v| v.difference.is_none()));
    assert_eq!(verdicts.iter().map(|v| v.calls).sum::<usize>(), run.made.len());
    assert!(line(&verdicts[0]).contains("bit for bit"));
    assert!(line(&verdicts[1]).contains("no calls"));
}

#[test]
fn solo_notices_an_answer_that_differs_in_its_last_bit() {
    let mut run = accepted(SMALL);
    let planted = run.made.iter_mut().filter(|m| m.seat == 3).filter_map(|m| match &mut m.answer {
        Ok(Told::Step(report)) => Some(report),
        _ => None,
    });
    let report = planted.last().expect("a step");
    report.ratio = f64::from_bits(report.ratio.to_bits() ^ 1);
    let verdicts = compare(&run.made, &run.bench);
    assert!(line(&verdicts[3]).contains("DIFFERS, call"));
    assert!(verdicts[0].difference.is_none());
    assert!(crate::compared(&run).is_err());
}

#[test]
fn solo_notices_a_strand_that_is_left_otherwise() {
    let mut run = accepted(SMALL);
    run.bench.step_static(0, None).expect("a step that is not in the list");
    let verdicts = compare(&run.made, &run.bench);
    assert!(line(&verdicts[0]).contains("DIFFERS, the strand"));
    assert!(verdicts[3].difference.is_none());
}

#[test]
fn solo_notices_a_call_left_out() {
    let mut run = accepted(SMALL);
    let pin = run.made.iter().position(|m| m.seat == 3 && matches!(m.call, Call::Pin { .. })).expect("a pin");
    run.made.remove(pin);
    assert!(compare(&run.made, &run.bench)[3].difference.is_some());
}

#[test]
fn a_look_tells_what_the_bench_holds() {
    let run = accepted(&format!("{SMALL}look 3 velocities"));
    let Ok(Told::Numbers(numbers)) = &run.made.last().expect("a look").answer else { panic!("numbers") };
    assert_eq!(Ok(&numbers[..]), run.bench.look(3, Kind::Velocities));
    assert!(numbers.iter().any(|v| *v != 0.0));
}
