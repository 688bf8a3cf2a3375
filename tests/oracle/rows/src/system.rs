//! The system of a strand: `wdwddw_hair_system` of `rod3_darboux.rs`, what a step adds to it, and
//! `sparse_square.rs`: the pins, a product and two solves. Each row begins with what the one before
//! it left.

use crate::inputs::STRAND;
use crate::print::{bits, Rows};
use bench::lines::{add_inertia, add_pick, assemble, solved};
use reference::rod3_darboux::{orthonormalize_framex_for_hair, RodSimulator};
use reference::sparse_square::{set_fix_dof_to_rhs_vector, Matrix};

type Blocks = Matrix<[f64; 16]>;

pub fn strand(rows: &mut Rows) {
    let mut rod = simulator();
    hair_system(rows, &mut rod);
    pick(rows, &mut rod);
    check_static(&rod);
    inertia(rows, &mut rod);
    pins(rows, &mut rod);
    check_dynamic(&rod);
    product(rows, &rod.ddw);
    // The first solve ends by its limit, the second by its tolerance.
    solve(rows, &rod, 1.0e-9, 3);
    solve(rows, &rod, 0.7, 1000);
}

/// The strand, with nothing pinned and no velocities.
pub fn simulator() -> RodSimulator<f64> {
    let mut rod = RodSimulator {
        vtx2xyz_ini: STRAND.rest.concat(),
        vtx2framex_ini: STRAND.rest_axes.concat(),
        vtx2xyz_def: STRAND.now.concat(),
        vtx2framex_def: STRAND.now_axes.concat(),
        vtx2velo: vec![0.0; 9],
        vtx2xyz_tmp: STRAND.now.concat(),
        vtx2isfix: vec![[0; 4]; 3],
        w: 0.0,
        dw: vec![],
        ddw: Matrix::new(),
        conv_ratio: 0.01,
        stiff_length: STRAND.stiff_length,
        stiff_bendtwist: STRAND.stiff_bendtwist,
    };
    orthonormalize_framex_for_hair(&mut rod.vtx2framex_ini, &rod.vtx2xyz_ini);
    orthonormalize_framex_for_hair(&mut rod.vtx2framex_def, &rod.vtx2xyz_def);
    rod.allocate_memory_for_linear_system();
    rod
}

fn hair_system(rows: &mut Rows, rod: &mut RodSimulator<f64>) {
    assemble(rod, &STRAND.now.concat());
    rows.function("wdwddw_hair_system");
    rows.input("vtx2xyz_ini", &rod.vtx2xyz_ini);
    rows.input("vtx2xyz_def", &rod.vtx2xyz_def);
    rows.input("stiff_length", &[rod.stiff_length]);
    rows.input("stiff_bendtwist", &rod.stiff_bendtwist);
    rows.input("vtx2framex_ini", &rod.vtx2framex_ini);
    rows.input("vtx2framex_def", &rod.vtx2framex_def);
    rows.output("w", &[rod.w]);
    output_system(rows, rod);
}

/// `check_static` compares with the simulator's own.
fn pick(rows: &mut Rows, rod: &mut RodSimulator<f64>) {
    let (i_vtx, pos_goal) = STRAND.pick;
    let position = STRAND.now[i_vtx];
    rows.function("pick");
    rows.input_whole("i_vtx", i_vtx);
    rows.input("position", &position);
    rows.input("pos_goal", &pos_goal);
    input_system(rows, rod);

    add_pick(rod, &STRAND.now.concat(), STRAND.pick);
    output_system(rows, rod);
}

/// `check_dynamic` compares with the simulator's own.
fn inertia(rows: &mut Rows, rod: &mut RodSimulator<f64>) {
    rows.function("inertia");
    rows.input("dt", &[STRAND.dt]);
    input_system(rows, rod);

    add_inertia(rod, STRAND.dt);
    output_system(rows, rod);
}

fn pins(rows: &mut Rows, rod: &mut RodSimulator<f64>) {
    rows.function("set_fix_dof_to_rhs_vector");
    rows.input_pins("blk2isfix", &STRAND.pins);
    rows.inputs("dw", &rod.dw);
    set_fix_dof_to_rhs_vector(&mut rod.dw, &STRAND.pins);
    rows.outputs("dw", &rod.dw);

    rows.function("set_fixed_bc");
    rows.input_pins("bc_flag", &STRAND.pins);
    input_blocks(rows, &rod.ddw);
    rod.ddw.set_fixed_dof(1.0, &STRAND.pins);
    output_blocks(rows, &rod.ddw);
}

/// A vector, and what stood where the product goes.
const X: [[f64; 4]; 3] = [
    [0.37, -1.24, 0.58, 0.91],
    [-0.66, 0.83, 1.07, -0.29],
    [1.13, 0.44, -0.72, 0.56],
];
const Y: [[f64; 4]; 3] = [
    [-0.48, 0.17, 0.95, -1.31],
    [0.62, -0.77, 0.34, 1.19],
    [-0.23, 1.42, -0.86, 0.69],
];

fn product(rows: &mut Rows, ddw: &Blocks) {
    let mut y = Y;
    rows.function("mult_vec");
    input_blocks(rows, ddw);
    rows.inputs("y_vec", &y);
    rows.inputs("x_vec", &X);
    ddw.mult_vec(&mut y, 0.0, 1.0, &X);
    rows.outputs("y_vec", &y);
}

fn solve(rows: &mut Rows, rod: &RodSimulator<f64>, tolerance: f64, limit: usize) {
    let (_, u, history) = solved(rod, tolerance, limit);
    rows.function("conjugate_gradient");
    rows.inputs("r_vec", &rod.dw);
    rows.input("conv_ratio_tol", &[tolerance]);
    rows.input_whole("max_iteration", limit);
    input_blocks(rows, &rod.ddw);
    rows.output_whole("count", history.len());
    rows.output("ratio", &history[history.len() - 1..]);
    rows.outputs("u_vec", &u);
}

/// The whole simulator's static step leaves the same matrix, and the residual of its solve.
fn check_static(picked: &RodSimulator<f64>) {
    let mut rod = simulator();
    rod.update_static(&Some(STRAND.pick));
    check_solved(picked, &rod);
}

/// So does its dynamic step with pins, which makes the frames itself.
fn check_dynamic(pinned: &RodSimulator<f64>) {
    let mut rod = simulator();
    rod.vtx2framex_def = STRAND.now_axes.concat();
    rod.vtx2isfix = STRAND.pins.to_vec();
    rod.update_dynamic(&Some(STRAND.pick), STRAND.dt);
    check_solved(pinned, &rod);
}

fn check_solved(unsolved: &RodSimulator<f64>, stepped: &RodSimulator<f64>) {
    let (residual, _, _) = solved(unsolved, unsolved.conv_ratio, 1000);
    assert_eq!(bits(&stepped.dw), bits(&residual));
    assert_eq!(bits(&stepped.ddw.row2val), bits(&unsolved.ddw.row2val));
    assert_eq!(bits(&stepped.ddw.idx2val), bits(&unsolved.ddw.idx2val));
}

fn input_system(rows: &mut Rows, rod: &RodSimulator<f64>) {
    rows.inputs("dw", &rod.dw);
    input_blocks(rows, &rod.ddw);
}

fn output_system(rows: &mut Rows, rod: &RodSimulator<f64>) {
    rows.outputs("dw", &rod.dw);
    output_blocks(rows, &rod.ddw);
}

fn input_blocks(rows: &mut Rows, ddw: &Blocks) {
    for_each_block(ddw, |label, block| rows.input(label, block));
}

fn output_blocks(rows: &mut Rows, ddw: &Blocks) {
    for_each_block(ddw, |label, block| rows.output(label, block));
}

/// Row by row, the diagonal block last: `ddw12` is row 1, column 2.
fn for_each_block(ddw: &Blocks, mut each: impl FnMut(&str, &[f64; 16])) {
    for row in 0..ddw.num_blk {
        for idx in ddw.row2idx[row]..ddw.row2idx[row + 1] {
            each(&format!("ddw{row}{}", ddw.idx2col[idx]), &ddw.idx2val[idx]);
        }
        each(&format!("ddw{row}{row}"), &ddw.row2val[row]);
    }
}
