//! The two kinds of step, with the refusals from 7 on: the lines of `update_static` and
//! `update_dynamic`, tests between them. Where an error is returned the strand may be half updated.

use crate::given::{all_finite, decline, edges_fit};
use crate::lines::{add_inertia, add_pick, assemble, solved};
use crate::strand::Rod;
use del_geo_core::vec3;
use del_msh_cpu::vtx2xyz::to_array3;
use machine::{Pick, StepNumbers};
use reference::rod3_darboux::{orthonormalize_framex_for_hair, update_solution_hair};
use reference::sparse_square::set_fix_dof_to_rhs_vector;

/// Iterations of a solve.
const LIMIT: usize = 1000;

/// 2^-20.
const LEAST_TURN: f64 = 1.0 / 1048576.0;

pub fn update_static(rod: &mut Rod, pick: Pick) -> Result<StepNumbers, u8> {
    let mut positions = rod.vtx2xyz_def.clone();
    decline(7, !edges_fit(&positions))?;
    assemble(rod, &positions);
    if let Some(pick) = pick {
        add_pick(rod, &positions, pick);
    }
    decline(8, !system_finite(rod))?;
    let (u, numbers) = pin_and_solve(rod)?;
    let turns_fit = turns_fit(rod, &positions, &u);
    update_solution_hair(&mut positions, &mut rod.vtx2framex_def, &u, &rod.vtx2isfix);
    rod.vtx2xyz_def = positions;
    finish(rod, turns_fit)?;
    Ok(numbers)
}

pub fn update_dynamic(rod: &mut Rod, pick: Pick, dt: f64) -> Result<StepNumbers, u8> {
    let mut copy = predicted(rod, dt);
    decline(7, !edges_fit(&copy))?;
    orthonormalize_framex_for_hair(&mut rod.vtx2framex_def, &copy);
    assemble(rod, &copy);
    if let Some(pick) = pick {
        add_pick(rod, &copy, pick);
    }
    add_inertia(rod, dt);
    decline(8, !system_finite(rod))?;
    let (u, numbers) = pin_and_solve(rod)?;
    let turns_fit = turns_fit(rod, &copy, &u);
    update_solution_hair(&mut copy, &mut rod.vtx2framex_def, &u, &rod.vtx2isfix);
    for i in free(rod) {
        rod.vtx2velo[i] = (copy[i] - rod.vtx2xyz_def[i]) / dt;
        rod.vtx2xyz_def[i] = copy[i];
    }
    rod.vtx2xyz_tmp = copy;
    finish(rod, turns_fit)?;
    Ok(numbers)
}

/// The unpinned position components.
fn free(rod: &Rod) -> Vec<usize> {
    (0..rod.vtx2xyz_def.len())
        .filter(|i| rod.vtx2isfix[i / 3][i % 3] == 0)
        .collect()
}

/// The working copy at the start of a dynamic step.
fn predicted(rod: &Rod, dt: f64) -> Vec<f64> {
    let mut copy = rod.vtx2xyz_tmp.clone();
    for i in free(rod) {
        copy[i] = rod.vtx2xyz_def[i] + dt * rod.vtx2velo[i];
    }
    copy
}

/// The solution and the numbers that the step answers if it is accepted.
fn pin_and_solve(rod: &mut Rod) -> Result<(Vec<[f64; 4]>, StepNumbers), u8> {
    set_fix_dof_to_rhs_vector(&mut rod.dw, &rod.vtx2isfix);
    rod.ddw.set_fixed_dof(1.0, &rod.vtx2isfix);
    let (_, u, history) = solved(rod, rod.conv_ratio, LIMIT);
    let numbers = StepNumbers {
        refusal: 0,
        energy: rod.w,
        count: history.len(),
        ratio: history.last().copied().unwrap_or(0.0),
    };
    let finite = all_finite(u.as_flattened()) && numbers.ratio.is_finite();
    decline(9, !finite)?;
    Ok((u, numbers))
}

fn system_finite(rod: &Rod) -> bool {
    rod.w.is_finite()
        && all_finite(rod.dw.as_flattened())
        && all_finite(rod.ddw.row2val.as_flattened())
        && all_finite(rod.ddw.idx2val.as_flattened())
}

/// No turned edge has 1 + c below the least: as `updated_rod_frame` computes the two unit edges.
fn turns_fit(rod: &Rod, positions: &[f64], u: &[[f64; 4]]) -> bool {
    (0..u.len() - 1)
        .filter(|&i| rod.vtx2isfix[i][3] == 0)
        .all(|i| {
            let z = vec3::sub(&to_array3(positions, i + 1), &to_array3(positions, i));
            let dz = [0, 1, 2].map(|k| u[i][k] - u[i + 1][k]);
            let a = vec3::scale(&z, 1.0 / vec3::norm(&z));
            let b = vec3::normalize(&vec3::add(&z, &dz));
            let below = 1.0 + vec3::dot(&a, &b) < LEAST_TURN;
            !below
        })
}

/// 10 is tested over all turned edges before 11.
fn finish(rod: &Rod, turns_fit: bool) -> Result<(), u8> {
    decline(10, !turns_fit)?;
    decline(11, !drape_finite(rod))
}

/// Positions, frames and velocities, kept ones too.
fn drape_finite(rod: &Rod) -> bool {
    all_finite(&rod.vtx2xyz_def) && all_finite(&rod.vtx2framex_def) && all_finite(&rod.vtx2velo)
}
