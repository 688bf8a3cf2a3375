//! Lines of `update_static` and `update_dynamic` that the source has no function for, written out,
//! and the two functions around them. Positions are the drape's in a static step, the working copy's
//! in a dynamic one.

use crate::strand::Rod;
use del_geo_core::mat4_col_major::{from_diagonal, Mat4ColMajor};
use del_geo_core::vec3;
use del_msh_cpu::vtx2xyz::to_array3;
use reference::rod3_darboux::wdwddw_hair_system;
use reference::sparse_square::conjugate_gradient;

/// Lines 1117 to 1128.
pub fn assemble(rod: &mut Rod, positions: &[f64]) {
    wdwddw_hair_system(
        &mut rod.w,
        &mut rod.dw,
        rod.ddw.as_ref_mut(),
        &rod.vtx2xyz_ini,
        positions,
        rod.stiff_length,
        &rod.stiff_bendtwist,
        &rod.vtx2framex_ini,
        &rod.vtx2framex_def,
        0.0,
    );
}

/// Lines 1129 to 1146.
pub fn add_pick(rod: &mut Rod, positions: &[f64], pick: (usize, [f64; 3])) {
    let (i_vtx, pos_goal) = pick;
    let stiff = 2.0 * 2.0 * 2.0 * 2.0;
    rod.ddw.row2val[i_vtx].add_in_place(&from_diagonal(stiff, stiff, stiff, 0.0));
    let c = vec3::scale(&vec3::sub(&to_array3(positions, i_vtx), &pos_goal), stiff);
    for (dw, c) in rod.dw[i_vtx].iter_mut().zip(c) {
        *dw += c;
    }
}

/// Lines 1219 to 1226.
pub fn add_inertia(rod: &mut Rod, dt: f64) {
    let c = 1.0 / (dt * dt);
    for block in &mut rod.ddw.row2val {
        for place in [0, 5, 10] {
            block[place] += c;
        }
    }
}

/// The residual, the solution and the ratios of a solve that begins with the gradient.
pub fn solved(rod: &Rod, tolerance: f64, limit: usize) -> (Vec<[f64; 4]>, Vec<[f64; 4]>, Vec<f64>) {
    let mut r = rod.dw.clone();
    let mut u = vec![[0.0; 4]; r.len()];
    let (mut ap, mut p) = (u.clone(), u.clone());
    let mat = rod.ddw.as_ref();
    let history = conjugate_gradient(&mut r, &mut u, &mut ap, &mut p, tolerance, limit, mat);
    (r, u, history)
}
