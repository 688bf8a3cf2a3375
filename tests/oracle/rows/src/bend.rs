//! Bend and twist: `rod3_darboux.rs`, all but the turned frame.

use crate::inputs::PIECES;
use crate::print::Rows;
use reference::rod3_darboux::doors::{
    darboux_rod, rod_frame_gradient, wdwdwdw_darboux_rod_hair_approx_hessian,
};
use reference::rod3_darboux::{add_gradient_of_dot_frame_axis, cdc_rod_darboux};

pub fn frame_gradient(rows: &mut Rows) {
    for piece in &PIECES {
        let (frame, length) = piece.frame(0);
        let (dfdv, dfdt) = rod_frame_gradient(length, &frame);
        rows.function("rod_frame_gradient");
        rows.input("length", &[length]);
        rows.inputs("frame", &frame);
        for (axis, dfdv) in dfdv.iter().enumerate() {
            rows.output(&format!("dfdv{axis}"), dfdv.as_flattened());
        }
        rows.outputs("dfdt", &dfdt);
    }
}

/// A factor, the two axes, and what stands in the sums before: not zero, so that the order of the
/// additions shows.
struct Addition {
    c: f64,
    i0_axis: usize,
    i1_axis: usize,
    dvdp: [[f64; 3]; 3],
    dvdt: [f64; 2],
}

/// One for each piece.
const ADDITIONS: [Addition; 3] = [
    Addition {
        c: 0.7,
        i0_axis: 0,
        i1_axis: 1,
        dvdp: [
            [-0.26, 0.23, 0.18],
            [0.76, 0.66, -0.03],
            [-0.12, 0.71, 0.85],
        ],
        dvdt: [0.03, -0.24],
    },
    Addition {
        c: -1.3,
        i0_axis: 1,
        i1_axis: 2,
        dvdp: [
            [0.52, 0.04, 0.55],
            [-0.65, -0.64, -0.66],
            [0.63, -0.34, 0.05],
        ],
        dvdt: [-0.01, 0.56],
    },
    Addition {
        c: 0.9,
        i0_axis: 2,
        i1_axis: 0,
        dvdp: [
            [0.45, -0.35, 0.71],
            [0.29, 0.21, 0.14],
            [-0.16, -0.87, 0.76],
        ],
        dvdt: [-0.46, 0.44],
    },
];

pub fn gradient_of_dot_frame_axis(rows: &mut Rows) {
    for (piece, addition) in PIECES.iter().zip(ADDITIONS) {
        let Addition {
            c,
            i0_axis,
            i1_axis,
            mut dvdp,
            mut dvdt,
        } = addition;
        let (frma, lena) = piece.frame(0);
        let (frmb, lenb) = piece.frame(1);
        let (dfadp, dfadt) = rod_frame_gradient(lena, &frma);
        let (dfbdp, dfbdt) = rod_frame_gradient(lenb, &frmb);

        rows.function("add_gradient_of_dot_frame_axis");
        rows.inputs("dvdp", &dvdp);
        rows.input("dvdt", &dvdt);
        rows.input("c", &[c]);
        rows.input_whole("i0_axis", i0_axis);
        rows.inputs("frma", &frma);
        for (axis, dfadp) in dfadp.iter().enumerate() {
            rows.input(&format!("dfadp{axis}"), dfadp.as_flattened());
        }
        rows.inputs("dfadt", &dfadt);
        rows.input_whole("i1_axis", i1_axis);
        rows.inputs("frmb", &frmb);
        for (axis, dfbdp) in dfbdp.iter().enumerate() {
            rows.input(&format!("dfbdp{axis}"), dfbdp.as_flattened());
        }
        rows.inputs("dfbdt", &dfbdt);

        add_gradient_of_dot_frame_axis(
            &mut dvdp, &mut dvdt, c, i0_axis, &frma, &dfadp, &dfadt, i1_axis, &frmb, &dfbdp, &dfbdt,
        );
        rows.outputs("dvdp", &dvdp);
        rows.output("dvdt", &dvdt);
    }
}

pub fn darboux(rows: &mut Rows) {
    for piece in &PIECES {
        darboux_row(rows, piece.points, piece.unit_axes());
    }
    // Document 01, P6. The zeros are +0.
    let points = [[0.0, 0.0, 0.0], [1.0, 0.0, 0.0], [1.0, 1.0, 0.0]];
    let worked = darboux_row(rows, points, [[0.0, 0.0, 1.0]; 2]);
    assert_eq!(
        worked.map(f64::to_bits),
        [-1.0f64, 0.0, 0.0].map(f64::to_bits)
    );
}

fn darboux_row(rows: &mut Rows, p: [[f64; 3]; 3], x: [[f64; 3]; 2]) -> [f64; 3] {
    let darboux = darboux_rod(&p, &x);
    rows.function("darboux_rod");
    rows.inputs("p", &p);
    rows.inputs("x", &x);
    rows.output("darboux", &darboux);
    darboux
}

pub fn darboux_gradient(rows: &mut Rows) {
    for piece in &PIECES {
        let (p, x) = (piece.points, piece.unit_axes());
        let (c, dcdp, dcdt) = cdc_rod_darboux(&p, &x);
        assert_eq!(c.map(f64::to_bits), darboux_rod(&p, &x).map(f64::to_bits));
        rows.function("cdc_rod_darboux");
        rows.inputs("p", &p);
        rows.inputs("x", &x);
        rows.output("c", &c);
        for (axis, dcdp) in dcdp.iter().enumerate() {
            rows.outputs(&format!("dcdp{axis}"), dcdp);
        }
        rows.outputs("dcdt", &dcdt);
    }
}

pub fn hair_approx_hessian(rows: &mut Rows) {
    for piece in &PIECES {
        let (p, x) = (piece.points, piece.unit_axes());
        let (w, dw, ddw) =
            wdwdwdw_darboux_rod_hair_approx_hessian(&p, &x, &piece.stiff, &piece.darboux0);
        rows.function("wdwdwdw_darboux_rod_hair_approx_hessian");
        rows.inputs("p", &p);
        rows.inputs("x", &x);
        rows.input("stiff", &piece.stiff);
        rows.input("darboux0", &piece.darboux0);
        rows.output("w", &[w]);
        rows.outputs("dw", &dw);
        for (node, ddw) in ddw.iter().enumerate() {
            rows.outputs(&format!("ddw{node}"), ddw);
        }
    }
}
