//! Other solves, pins and loads of the system.

use super::{wrong, Mutation};

pub const ALL: &[Mutation] = &[
    wrong!(
        "a start of exactly 2^-52 not solved",
        "sparse_square.rs",
        "sqnorm_res < T::epsilon()"
            => "sqnorm_res <= T::epsilon()",
    ),
    wrong!(
        "ends where the ratio is the limit",
        "sparse_square.rs",
        "if conv_ratio < conv_ratio_tol {
            return conv_hist;
        }"
            => "if conv_ratio <= conv_ratio_tol { return conv_hist; }",
    ),
    wrong!(
        hidden "the solution or the ratio is never finite again, and the step is refused with 9 all the same",
        "ends when the ratio is NaN",
        "sparse_square.rs",
        "if conv_ratio < conv_ratio_tol {
            return conv_hist;
        }"
            => "if !(conv_ratio >= conv_ratio_tol) { return conv_hist; }",
    ),
    wrong!(
        "ratio as a quotient of roots",
        "sparse_square.rs",
        "(sqnorm_res_new * inv_sqnorm_res_ini).sqrt()"
            => "sqnorm_res_new.sqrt() * inv_sqnorm_res_ini.sqrt()",
    ),
    wrong!(
        "the diagonal block first in a row",
        "sparse_square.rs",
        "mat.mult_vec::<N>(ap_vec, T::zero(), T::one(), p_vec);"
            => "ROOT::instead::diagonal_first(&mat, ap_vec, p_vec);",
    ),
    wrong!(
        "beta by the reciprocal",
        "sparse_square.rs",
        "sqnorm_res_new / sqnorm_res"
            => "sqnorm_res_new * (T::one() / sqnorm_res)",
    ),
    wrong!(
        "alpha by the reciprocal",
        "sparse_square.rs",
        "sqnorm_res / pap"
            => "sqnorm_res * (T::one() / pap)",
    ),
    wrong!(
        "ends when p times Ap is an infinity",
        "sparse_square.rs",
        "sqnorm_res / pap"
            => "{ if pap == T::one() / T::zero() { return conv_hist; } sqnorm_res / pap }",
    ),
    wrong!(
        hidden "it differs in the signs of zeros only, and the solution, a sum from +0, does not see them",
        "residual with 0 - alpha",
        "sparse_square.rs",
        "crate::slice_of_array::add_scaled_vector(r_vec, -alpha, ap_vec)"
            => "crate::slice_of_array::add_scaled_vector(r_vec, T::zero() - alpha, ap_vec)",
    ),
    wrong!(
        "dot over all numbers in one sum",
        "slice_of_array.rs",
        "sum + del_geo_core::vecn::dot(&x, &y)"
            => "x.iter().zip(&y).fold(sum, |sum, (&a, &b)| sum + a * b)",
    ),
    wrong!(
        "a pinned column zeroed without its row",
        "sparse_square.rs",
        "for j_dim in 0..N {
                    idx2val[idx][i_dim + N * j_dim] = T::zero();
                }"
            => "",
    ),
    wrong!(
        hidden "the pinned entries of the residual are zeros, so the diagonal meets zeros only",
        "a pinned diagonal of 2",
        "bench/step.rs",
        "rod.ddw.set_fixed_dof(1.0, &rod.vtx2isfix);"
            => "rod.ddw.set_fixed_dof(2.0, &rod.vtx2isfix);",
    ),
    wrong!(
        "pinned gradient kept",
        "bench/step.rs",
        "set_fix_dof_to_rhs_vector(&mut rod.dw, &rod.vtx2isfix);"
            => "",
    ),
    wrong!(
        "limit of 1,001",
        "bench/step.rs",
        "solved(rod, rod.conv_ratio, LIMIT)"
            => "solved(rod, rod.conv_ratio, LIMIT + 1)",
    ),
    wrong!(
        "limit of 999",
        "bench/step.rs",
        "solved(rod, rod.conv_ratio, LIMIT)"
            => "solved(rod, rod.conv_ratio, LIMIT - 1)",
    ),
    wrong!(
        "inertia by two divisions",
        "bench/lines.rs",
        "1.0 / (dt * dt)"
            => "1.0 / dt / dt",
    ),
    wrong!(
        "inertia on the twist too",
        "bench/lines.rs",
        "block[place] += c;"
            => "{ block[place] += c; if place == 10 { block[15] += c; } }",
    ),
    wrong!(
        "pick of 8",
        "bench/lines.rs",
        "2.0 * 2.0 * 2.0 * 2.0"
            => "2.0 * 2.0 * 2.0",
    ),
    wrong!(
        "pick as 16*position - 16*goal",
        "bench/lines.rs",
        "vec3::scale(&vec3::sub(&to_array3(positions, i_vtx), &pos_goal), stiff)"
            => "vec3::sub(&vec3::scale(&to_array3(positions, i_vtx), stiff), &vec3::scale(&pos_goal, stiff))",
    ),
];
