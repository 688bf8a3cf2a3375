//! Document 01, "Errors to rule out".

use super::{wrong, Mutation};

pub const ALL: &[Mutation] = &[
    wrong!(
        "an infinity left in ap_vec",
        "bench/lines.rs",
        "(u.clone(), u.clone())"
            => "(ROOT::instead::product(u.len()), u.clone())",
    ),
    wrong!(
        "a bend block copied to its mirror image",
        "rod3_darboux.rs",
        "del_geo_core::mat3_col_major::add_three(&m0, &m1, &m2)"
            => "if ino > jno { let b = ddw[jno][ino]; [b[0], b[4], b[8], b[1], b[5], b[9], b[2], b[6], b[10]] } else { del_geo_core::mat3_col_major::add_three(&m0, &m1, &m2) }",
    ),
    wrong!(
        "a diagonal bend block made symmetric",
        "rod3_darboux.rs",
        "del_geo_core::mat3_col_major::add_three(&m0, &m1, &m2)"
            => "{ let mut m = del_geo_core::mat3_col_major::add_three(&m0, &m1, &m2); if ino == jno { m[3] = m[1]; m[6] = m[2]; m[7] = m[5]; } m }",
    ),
    wrong!(
        "static: frames turned after positions moved",
        "bench/step.rs",
        "update_solution_hair(&mut positions, &mut rod.vtx2framex_def, &u, &rod.vtx2isfix);"
            => "ROOT::instead::moved_first(&mut positions, &mut rod.vtx2framex_def, &u, &rod.vtx2isfix);",
    ),
    wrong!(
        "dynamic: frames turned after positions moved",
        "bench/step.rs",
        "update_solution_hair(&mut copy, &mut rod.vtx2framex_def, &u, &rod.vtx2isfix);"
            => "ROOT::instead::moved_first(&mut copy, &mut rod.vtx2framex_def, &u, &rod.vtx2isfix);",
    ),
    wrong!(
        hidden "the pinned entries of p are zeros, and a finite number times zero adds nothing to a sum from +0",
        "a pinned row zeroed without its column",
        "sparse_square.rs",
        "row2val[i_blk][j_dim + N * i_dim] = T::zero();"
            => "",
        "for i_dim in 0..N {
                idx2val[idx][i_dim + N * j_dim] = T::zero();
            }"
            => "",
    ),
    wrong!(
        "work cleared only for a longer strand",
        "bench/lines.rs",
        "(u.clone(), u.clone())"
            => "(ROOT::instead::cleared_when_longer(u.len()), u.clone())",
    ),
];
