//! The turned frame: `updated_rod_frame` of `rod3_darboux.rs`.

use crate::inputs::PIECES;
use crate::print::Rows;
use reference::rod3_darboux::doors::updated_rod_frame;

/// An edge's movement and a twist, for the first edge of each piece. The twists need no reduction,
/// one turn added, and a remainder with one turn taken off. Near pi the series' last terms show.
const MOVES: [([f64; 3], f64); 3] = [
    ([-0.24, -0.45, 0.19], 2.45),
    ([-0.29, 0.07, -0.69], -3.33),
    ([0.65, -0.53, 0.24], 9.54),
];

pub fn frame(rows: &mut Rows) {
    for (piece, (dz, dtheta)) in PIECES.iter().zip(MOVES) {
        let ux0 = piece.unit_axes()[0];
        let z0 = piece.edge(0);
        let [ux2, uy2, uz2] = updated_rod_frame(&ux0, &z0, &dz, dtheta);
        rows.function("updated_rod_frame");
        rows.input("ux0", &ux0);
        rows.input("z0", &z0);
        rows.input("dz", &dz);
        rows.input("dtheta", &[dtheta]);
        rows.output("ux2", &ux2);
        rows.output("uy2", &uy2);
        rows.output("uz2", &uz2);
    }
}
