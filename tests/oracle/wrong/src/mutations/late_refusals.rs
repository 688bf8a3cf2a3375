//! Refusals of a step, from 7 on, in another order, left out, or with another edge.

use super::{wrong, Mutation};

pub const ALL: &[Mutation] = &[
    wrong!(
        "static: 7 not tested",
        "bench/step.rs",
        "decline(7, !edges_fit(&positions))?;"
            => "",
    ),
    wrong!(
        "dynamic: 7 not tested",
        "bench/step.rs",
        "decline(7, !edges_fit(&copy))?;"
            => "",
    ),
    wrong!(
        "dynamic: 7 of the drape",
        "bench/step.rs",
        "decline(7, !edges_fit(&copy))?;"
            => "decline(7, !edges_fit(&rod.vtx2xyz_def))?;",
    ),
    wrong!(
        "8 without the energy",
        "bench/step.rs",
        "rod.w.is_finite()"
            => "true",
    ),
    wrong!(
        "8 without gradients",
        "bench/step.rs",
        "all_finite(rod.dw.as_flattened())"
            => "true",
    ),
    wrong!(
        "8 after pins in the gradient",
        "bench/step.rs",
        "all_finite(rod.dw.as_flattened())"
            => "{ let mut dw = rod.dw.clone(); set_fix_dof_to_rhs_vector(&mut dw, &rod.vtx2isfix); all_finite(dw.as_flattened()) }",
    ),
    wrong!(
        "8 without diagonal blocks",
        "bench/step.rs",
        "all_finite(rod.ddw.row2val.as_flattened())"
            => "true",
    ),
    wrong!(
        "9 not tested",
        "bench/step.rs",
        "decline(9, !finite)?;"
            => "",
    ),
    wrong!(
        "9 of the ratio only",
        "bench/step.rs",
        "decline(9, !finite)?;"
            => "decline(9, !numbers.ratio.is_finite())?;",
    ),
    wrong!(
        "10 before 9",
        "bench/step.rs",
        "decline(9, !finite)?;"
            => "decline(10, !turns_fit(rod, &rod.vtx2xyz_def, &u))?; decline(9, !finite)?;",
    ),
    wrong!(
        "11 before 10",
        "bench/step.rs",
        "decline(10, !turns_fit)?;"
            => "decline(11, !drape_finite(rod))?; decline(10, !turns_fit)?;",
    ),
    wrong!(
        "10 at 2^-20 itself",
        "bench/step.rs",
        "1.0 + vec3::dot(&a, &b) < LEAST_TURN"
            => "1.0 + vec3::dot(&a, &b) <= LEAST_TURN",
    ),
    wrong!(
        "10 for a NaN",
        "bench/step.rs",
        "1.0 + vec3::dot(&a, &b) < LEAST_TURN"
            => "!(1.0 + vec3::dot(&a, &b) >= LEAST_TURN)",
    ),
    wrong!(
        hidden "1 + c is exact where c is near -1",
        "10 by c < 2^-20 - 1",
        "bench/step.rs",
        "1.0 + vec3::dot(&a, &b) < LEAST_TURN"
            => "vec3::dot(&a, &b) < LEAST_TURN - 1.0",
    ),
    wrong!(
        "10 over pinned twists too",
        "bench/step.rs",
        "rod.vtx2isfix[i][3] == 0"
            => "rod.vtx2isfix[i][3] == 0 || true",
    ),
    wrong!(
        "11 without velocities",
        "bench/step.rs",
        "all_finite(&rod.vtx2velo)"
            => "true",
    ),
    wrong!(
        "11 with the working copy",
        "bench/step.rs",
        "all_finite(&rod.vtx2velo)"
            => "all_finite(&rod.vtx2velo) && all_finite(&rod.vtx2xyz_tmp)",
    ),
    wrong!(
        "11 without frames",
        "bench/step.rs",
        "all_finite(&rod.vtx2framex_def)"
            => "true",
    ),
    wrong!(
        "8 not tested",
        "bench/step.rs",
        "all_finite(rod.ddw.idx2val.as_flattened())"
            => "true",
        "all_finite(rod.dw.as_flattened())"
            => "true",
        "all_finite(rod.ddw.row2val.as_flattened())"
            => "true",
        "rod.w.is_finite()"
            => "true",
    ),
    wrong!(
        "9 without a solve",
        "bench/step.rs",
        "solved(rod, rod.conv_ratio, LIMIT)"
            => "{ if rod.conv_ratio == 0.0 { return Err(9); } solved(rod, rod.conv_ratio, LIMIT) }",
    ),
];
