//! Scripts that are good, and lines that are not.

use crate::parse::parse;
use crate::script::{Action, Statement, Who};
use hairbench::{Component, Kind, Pick};

fn file(name: &str) -> Result<String, String> {
    match name {
        "three.txt" => Ok("# a bend\n0 0 0\n\n1 0 0 # then up\n1 1 0\n".to_string()),
        "frames.txt" => Ok("0 0 1\n0 0 1\n0 0 1\n".to_string()),
        "two.txt" => Ok("0 0 0\n1 0\n".to_string()),
        "word.txt" => Ok("0 0 0\n1 0 x\n".to_string()),
        "one.txt" => Ok("0 0 0\n".to_string()),
        _ => Err(format!("{name}: not there")),
    }
}

fn good(text: &str) -> Vec<Statement> {
    parse(text, &file).unwrap_or_else(|faults| panic!("{faults:?}"))
}

fn only(text: &str) -> Action {
    let mut statements = good(text);
    assert_eq!(statements.len(), 1);
    statements.remove(0).action
}

#[test]
fn lines_are_counted_and_comments_left_out() {
    let statements = good("# an evening\n\n  unload 3 # gone\n\tdrop 5\n");
    let seen: Vec<_> = statements.iter().map(|s| (s.line, s.text.as_str(), s.action.clone())).collect();
    let expected = [(3, "unload 3", Action::Unload { seat: 3 }), (4, "drop 5", Action::Drop { seat: 5 })];
    assert_eq!(seen, expected);
}

#[test]
fn each_statement() {
    let [x, y, z, twist] = Component::ALL;
    let pin =
        |components: &[Component], pinned| Action::Pin { seat: 1, vertex: 4, components: components.to_vec(), pinned };
    assert_eq!(only("pin 1 4 all"), pin(&[x, y, z, twist], true));
    assert_eq!(only("pin 1 4 position"), pin(&[x, y, z], true));
    assert_eq!(only("free 1 4 twist"), pin(&[twist], false));
    let pick = Pick { vertex: 7, goal: [1.0, -2.5, 1.0e3] };
    assert_eq!(only("pick 0 7 1 -2.5 1e3"), Action::Pick { seat: 0, pick });
    assert_eq!(only("settle all"), Action::Settle { who: Who::All, steps: 100, tolerance: 1.0e-6 });
    let settle = Action::Settle { who: Who::Seat(2), steps: 5, tolerance: 0.5 };
    assert_eq!(only("settle 2 tolerance=0.5 steps=5"), settle);
    assert_eq!(only("move 2 seconds=0.5"), Action::Move { who: Who::Seat(2), steps: 15 });
    assert_eq!(only("look 5 velocities"), Action::Look { seat: 5, kind: Kind::Velocities });
    assert_eq!(only("draw a.svg all"), Action::Draw { file: "a.svg".to_string(), who: Who::All });
    assert_eq!(only("play b.html 3"), Action::Play { file: "b.html".to_string(), who: Who::Seat(3) });
    assert_eq!(only("unit mm"), Action::Unit("mm".to_string()));
}

#[test]
fn loads_with_their_settings() {
    let Action::Load { seat, laid } = only("load 4 straight vertices=3 length=4 direction=2,0,0 origin=1,1,1") else {
        panic!("a load")
    };
    assert_eq!((seat, laid.positions), (4, vec![1.0, 1.0, 1.0, 3.0, 1.0, 1.0, 5.0, 1.0, 1.0]));
    assert_eq!((laid.settings.stiff_length, laid.settings.stiff_bendtwist), (2.0, [10.0; 3]));
    let Action::Load { laid, .. } = only("load 0 curl vertices=9 stretch=3 bend=1,2,3 ratio=0.5 length=30") else {
        panic!("a load")
    };
    assert_eq!(laid.positions.len(), 27);
    assert_eq!((laid.settings.stiff_length, laid.settings.conv_ratio), (3.0, 0.5));
    assert_eq!(laid.settings.stiff_bendtwist, [1.0, 2.0, 3.0]);
}

#[test]
fn defaults_are_a_strand_of_16_vertices() {
    for shape in ["straight", "curl"] {
        let Action::Load { laid, .. } = only(&format!("load 0 {shape}")) else { panic!("a load") };
        assert_eq!((laid.positions.len(), laid.frames.len()), (48, 48));
    }
}

#[test]
fn loads_from_files() {
    let Action::Load { laid, .. } = only("load 0 from three.txt bend=4") else { panic!("a load") };
    assert_eq!(laid.positions, [0.0, 0.0, 0.0, 1.0, 0.0, 0.0, 1.0, 1.0, 0.0]);
    assert_eq!(laid.frames.len(), 9);
    assert_eq!(laid.settings.stiff_bendtwist, [4.0; 3]);
    let Action::Load { laid, .. } = only("load 0 from three.txt frames=frames.txt") else { panic!("a load") };
    assert_eq!(laid.frames, [0.0, 0.0, 1.0].repeat(3));
}

#[test]
fn bad_lines() {
    let bad = [
        ("jump 1", "no statement"),
        ("unit thousandths-of-an-inch", "longer than 12"),
        ("unload", "a seat is missing"),
        ("unload 6", "no seat 6"),
        ("unload -1", "not a whole number"),
        ("unload 1 2", "one word too many"),
        ("unload 1 steps=2", "`steps=` means nothing"),
        ("pin 1 2", "what to hold is missing"),
        ("pin 1 2 w", "none of x, y, z"),
        ("pick 1 2 3 4", "z of the goal is missing"),
        ("pick 1 2 3 4 nan", "not a finite number"),
        ("settle 1 steps=0", "not even one step"),
        ("settle 1 steps=2 steps=3", "stands twice"),
        ("settle 1 steps=1000000", "too many"),
        ("settle 1 tolerance=-1", "below 0"),
        ("move all", "seconds= is missing"),
        ("move all seconds=-2", "not above 0"),
        ("look 1 everything", "none of rest-positions"),
        ("draw a.png 1", "ends in .svg"),
        ("draw .svg 1", "ends in .svg"),
        ("draw ../a.svg 1", "plain file name"),
        ("play a.svg 1", "ends in .html"),
        ("draw a.svg", "a seat is missing"),
        ("load 1 knot", "none of straight, curl, from"),
        ("load 1 straight vertices=33", "2 to 32"),
        ("load 1 straight vertices=1", "2 to 32"),
        ("load 1 straight length=0", "length= is not above 0"),
        ("load 1 straight radius=1", "`radius=` means nothing"),
        ("load 1 straight origin=1,2", "2 numbers, not three"),
        ("load 1 straight direction=0,0,0", "no length"),
        ("load 1 curl length=2 radius=1", "need more than"),
        ("load 1 straight stretch=soft", "stretch=: `soft` is not a finite number"),
        ("load 1 from none.txt", "none.txt: not there"),
        ("load 1 from two.txt", "two.txt:2: 2 numbers, not three"),
        ("load 1 from word.txt", "word.txt:2: `x` is not a finite number"),
        ("load 1 from one.txt", "1 vertices"),
        ("load 1 from three.txt frames=one.txt", "1 frames for 3 vertices"),
    ];
    for (text, message) in bad {
        let faults = parse(&format!("unit cm\n\n{text}\n"), &file).expect_err(text);
        assert_eq!(faults.len(), 1, "{text}");
        assert_eq!(faults[0].line, 3, "{text}");
        assert!(faults[0].message.contains(message), "{text}: {}", faults[0].message);
    }
}

#[test]
fn every_bad_line_is_told() {
    let faults = parse("hop\nunload 1\nskip\n", &file).expect_err("two bad lines");
    assert_eq!(faults.iter().map(|f| f.line).collect::<Vec<_>>(), [1, 3]);
}

#[test]
fn a_file_is_written_once() {
    let faults = parse("draw a.svg 1\ndraw b.svg 1\ndraw a.svg 2\n", &file).expect_err("a name twice");
    assert_eq!(faults[0].line, 3);
    assert!(faults[0].message.contains("line 1 writes this file already"));
}
