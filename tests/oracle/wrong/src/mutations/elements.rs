//! Other orders of operations in the elements, and other assemblies.

use super::{wrong, Mutation};

pub const ALL: &[Mutation] = &[
    wrong!(
        "stretch gradient -c*(k/l)",
        "spring3.rs",
        "-c * stiffness / l"
            => "-c * (stiffness / l)",
    ),
    wrong!(
        "stretch t0 k*(L/lll)",
        "spring3.rs",
        "stiffness * edge_length_ini / (l * l * l)"
            => "stiffness * (edge_length_ini / (l * l * l))",
    ),
    wrong!(
        "stretch t0 by two divisions",
        "spring3.rs",
        "stiffness * edge_length_ini / (l * l * l)"
            => "stiffness * edge_length_ini / (l * l) / l",
    ),
    wrong!(
        "stretch t1 k*((l-L)/l)",
        "spring3.rs",
        "stiffness * (l - edge_length_ini) / l"
            => "stiffness * ((l - edge_length_ini) / l)",
    ),
    wrong!(
        hidden "it differs at rest only, in the sign of zeros, which the sums from +0 swallow",
        "stretch t1 by -c",
        "spring3.rs",
        "stiffness * (l - edge_length_ini) / l"
            => "stiffness * -c / l",
    ),
    wrong!(
        "stretch energy (half*k)*(c*c)",
        "spring3.rs",
        "half * stiffness * c * c"
            => "half * stiffness * (c * c)",
    ),
    wrong!(
        "stretch energy (half*k)*c",
        "spring3.rs",
        "half * stiffness * c * c"
            => "half * stiffness * c",
    ),
    wrong!(
        "Darboux of the rest by 1/s",
        "rod3_darboux.rs",
        "[u[0] / s, u[1] / s, u[2] / s]"
            => "[u[0] * (one / s), u[1] * (one / s), u[2] * (one / s)]",
    ),
    wrong!(
        "s of the rest as 1+(d0+(d1+d2))",
        "rod3_darboux.rs",
        "one + frma[0].dot(&frmb[0]) + frma[1].dot(&frmb[1]) + frma[2].dot(&frmb[2])"
            => "one + (frma[0].dot(&frmb[0]) + (frma[1].dot(&frmb[1]) + frma[2].dot(&frmb[2])))",
    ),
    wrong!(
        "s as 1+(d0+(d1+d2))",
        "rod3_darboux.rs",
        "T::one() + frma[0].dot(&frmb[0]) + frma[1].dot(&frmb[1]) + frma[2].dot(&frmb[2])"
            => "T::one() + (frma[0].dot(&frmb[0]) + (frma[1].dot(&frmb[1]) + frma[2].dot(&frmb[2])))",
    ),
    wrong!(
        "t1 as (-u/s)/s",
        "rod3_darboux.rs",
        "-u / (s * s)"
            => "-u / s / s",
    ),
    wrong!(
        "dcdt divided by s",
        "rod3_darboux.rs",
        "dudt[0] * t0 + dsdt[0] * t1"
            => "dudt[0] / s + dsdt[0] * t1",
    ),
    wrong!(
        "dcdp divided by s",
        "rod3_darboux.rs",
        "dudp[1].scale(t0).add(&dsdp[1].scale(t1))"
            => "dudp[1].map(|x| x / s).add(&dsdp[1].scale(t1))",
    ),
    wrong!(
        "bend energy k*(r*r)",
        "rod3_darboux.rs",
        "stiff_bendtwist[1] * r[1] * r[1]"
            => "stiff_bendtwist[1] * (r[1] * r[1])",
    ),
    wrong!(
        "the energy summed from -0 on",
        "rod3_darboux.rs",
        "*w = zero;"
            => "*w = -zero;",
    ),
    wrong!(
        "bend gradient (dcdp*r)*k",
        "rod3_darboux.rs",
        "dcdp[1][ino].scale(stiff_bendtwist[1] * r[1])"
            => "dcdp[1][ino].scale(r[1]).scale(stiff_bendtwist[1])",
    ),
    wrong!(
        "twist gradient k*(r*dcdt)",
        "rod3_darboux.rs",
        "stiff_bendtwist[0] * r[0] * dcdt[0][ino]"
            => "stiff_bendtwist[0] * (r[0] * dcdt[0][ino])",
    ),
    wrong!(
        "coupling (dcdp*dcdt)*k",
        "rod3_darboux.rs",
        "dcdp[0][ino].scale(stiff_bendtwist[0] * dcdt[0][jno])"
            => "dcdp[0][ino].scale(dcdt[0][jno]).scale(stiff_bendtwist[0])",
    ),
    wrong!(
        "twist block k*(dcdt*dcdt)",
        "rod3_darboux.rs",
        "stiff_bendtwist[0] * dcdt[0][ino] * dcdt[0][jno]"
            => "stiff_bendtwist[0] * (dcdt[0][ino] * dcdt[0][jno])",
    ),
    wrong!(
        "the coupling row left out",
        "rod3_darboux.rs",
        "ddw[jno][ino][7] = v[1];"
            => "",
    ),
    wrong!(
        "frame derivative scaled after",
        "rod3_darboux.rs",
        "mat3_col_major::from_projection_onto_plane(&frame[2])
            .scale(leninv)"
            => "mat3_col_major::from_projection_onto_plane(&frame[2]).map(|x| x / length)",
    ),
    wrong!(
        "stretch elements downward",
        "rod3_darboux.rs",
        "for i0_vtx in 0..num_vtx - 1 {
        let i1_vtx = i0_vtx + 1;
        let length_ini"
            => "for i0_vtx in ROOT::instead::order(num_vtx - 1, SWITCH) { let i1_vtx = i0_vtx + 1; let length_ini",
    ),
    wrong!(
        "bend elements downward",
        "rod3_darboux.rs",
        "for i0_vtx in 0..num_vtx - 2 {"
            => "for i0_vtx in ROOT::instead::order(num_vtx - 2, SWITCH) {",
    ),
    wrong!(
        "rest length of the drape",
        "rod3_darboux.rs",
        "del_geo_core::edge3::length(&p0, &p1)"
            => "del_geo_core::edge3::length(&del_msh_cpu::vtx2xyz::to_array3(&vtx2xyz_def, i0_vtx), &del_msh_cpu::vtx2xyz::to_array3(&vtx2xyz_def, i1_vtx))",
    ),
    wrong!(
        "edges turned by moved positions less old",
        "rod3_darboux.rs",
        "vec_x[i0_vtx][0] - vec_x[i1_vtx][0]"
            => "((p1[0] - vec_x[i1_vtx][0]) - (p0[0] - vec_x[i0_vtx][0])) - z[0]",
    ),
    wrong!(
        "the twist turned the other way",
        "rod3_darboux.rs",
        "-vec_x[i0_vtx][3]"
            => "vec_x[i0_vtx][3]",
    ),
    wrong!(
        "a pinned twist turned",
        "rod3_darboux.rs",
        "vtx2isfix[i0_vtx][3] != 0"
            => "false && vtx2isfix[i0_vtx][3] != 0",
    ),
];
