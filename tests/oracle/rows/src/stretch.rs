//! Stretch: `spring3.rs`.

use crate::inputs::PIECES;
use crate::print::{bits, Rows};
use reference::spring3::wdwddw_squared_length_difference;
use std::array::from_fn;

/// Energy, two gradients, four blocks.
type Stretch = (f64, [[f64; 3]; 2], [[[f64; 9]; 2]; 2]);

/// A stiffness and a rest length for the first edge of each piece. The second edge is compressed,
/// the others are stretched.
const SPRINGS: [(f64, f64); 3] = [(0.7, 0.72), (1.3, 2.24), (0.9, 1.64)];

pub fn squared_length_difference(rows: &mut Rows) {
    for (piece, (stiff, length_ini)) in PIECES.iter().zip(SPRINGS) {
        let [p0, p1, _] = piece.points;
        row(rows, stiff, [p0, p1], length_ini);
    }
    let worked = row(rows, 1.0, [[0.0, 0.0, 0.0], [2.0, 0.0, 0.0]], 1.0);
    check_worked_example(worked);
}

fn row(rows: &mut Rows, stiff: f64, p: [[f64; 3]; 2], length_ini: f64) -> Stretch {
    let (w, dw, ddw) = wdwddw_squared_length_difference(stiff, &p, length_ini);
    let m = ddw[0][0];
    check_blocks(&m, &ddw);
    rows.function("wdwddw_squared_length_difference");
    rows.input("stiff", &[stiff]);
    rows.inputs("p", &p);
    rows.input("length_ini", &[length_ini]);
    rows.output("w", &[w]);
    rows.outputs("dw", &dw);
    rows.output("m", &by_rows(&m));
    (w, dw, ddw)
}

/// Row i, column j moved from place i + 3j to place 3i + j.
fn by_rows(m: &[f64; 9]) -> [f64; 9] {
    from_fn(|place| m[place / 3 + 3 * (place % 3)])
}

/// The four blocks are m on the diagonal and m*(-1) off it, to the sign of zero.
#[allow(clippy::neg_multiply)]
fn check_blocks(m: &[f64; 9], ddw: &[[[f64; 9]; 2]; 2]) {
    let negative = m.map(|x| x * -1.0);
    let expected = [[*m, negative], [negative, *m]];
    assert_eq!(bits(ddw.as_flattened()), bits(expected.as_flattened()));
}

/// Document 01, P5.
fn check_worked_example((w, dw, ddw): Stretch) {
    assert_eq!(w.to_bits(), 0.5f64.to_bits());
    assert_eq!(bits(&dw), bits(&[[-1.0, 0.0, 0.0], [1.0, -0.0, -0.0]]));
    let m = [1.0, 0.0, 0.0, 0.0, 0.5, 0.0, 0.0, 0.0, 0.5];
    assert_eq!(bits(&ddw[0][..1]), bits(&[m]));
}
