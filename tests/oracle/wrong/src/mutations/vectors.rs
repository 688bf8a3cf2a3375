//! Other orders of operations in the stand-ins.

use super::{wrong, Mutation};

pub const ALL: &[Mutation] = &[
    wrong!(
        "dot a0b0+(a1b1+a2b2)",
        "del_geo_core/vec3.rs",
        "(a[0] * b[0] + a[1] * b[1]) + a[2] * b[2]"
            => "a[0] * b[0] + (a[1] * b[1] + a[2] * b[2])",
    ),
    wrong!(
        "dot (a0b0+a2b2)+a1b1",
        "del_geo_core/vec3.rs",
        "(a[0] * b[0] + a[1] * b[1]) + a[2] * b[2]"
            => "(a[0] * b[0] + a[2] * b[2]) + a[1] * b[1]",
    ),
    wrong!(
        "normalize divides",
        "del_geo_core/vec3.rs",
        "scale(v, T::one() / norm(v))"
            => "v.map(|x| x / norm(v))",
    ),
    wrong!(
        "row vector times matrix from the right",
        "del_geo_core/vec3.rs",
        "(q[0] * a[0][j] + q[1] * a[1][j]) + q[2] * a[2][j]"
            => "q[0] * a[0][j] + (q[1] * a[1][j] + q[2] * a[2][j])",
    ),
    wrong!(
        "add_three a+(b+c)",
        "del_geo_core/vec3.rs",
        "(a[i] + b[i]) + c[i]"
            => "a[i] + (b[i] + c[i])",
    ),
    wrong!(
        "orthogonalize with (dot*v)/dot",
        "del_geo_core/vec3.rs",
        "f[i] - t * v[i]"
            => "f[i] - dot(v, f) * v[i] / dot(v, v)",
    ),
    wrong!(
        "outer product s*(a*b)",
        "del_geo_core/mat3_col_major.rs",
        "(s * a[i]) * b[j]"
            => "s * (a[i] * b[j])",
    ),
    wrong!(
        "outer product (s*b)*a",
        "del_geo_core/mat3_col_major.rs",
        "(s * a[i]) * b[j]"
            => "(s * b[j]) * a[i]",
    ),
    wrong!(
        "block add_three a+(b+c)",
        "del_geo_core/mat3_col_major.rs",
        "(a[place] + b[place]) + c[place]"
            => "a[place] + (b[place] + c[place])",
    ),
    wrong!(
        "rotation c*v+(n*v+n*along)",
        "del_geo_core/mat3_col_major.rs",
        "(*c * v[i] + n_cross_v[i]) + n[i] * along"
            => "*c * v[i] + (n_cross_v[i] + n[i] * along)",
    ),
    wrong!(
        "rotation (n*dot)/(1+c)",
        "del_geo_core/mat3_col_major.rs",
        "(*c * v[i] + n_cross_v[i]) + n[i] * along"
            => "(*c * v[i] + n_cross_v[i]) + n[i] * vec3::dot(n, v) / (T::one() + *c)",
    ),
    wrong!(
        "series (z*t)/d",
        "num_traits/lib.rs",
        "1.0 - (z / f64::from(d)) * t"
            => "1.0 - z * t / f64::from(d)",
    ),
    wrong!(
        "sine with twelve terms",
        "num_traits/lib.rs",
        "(1..=13)"
            => "(1..=12)",
    ),
    wrong!(
        "cosine with thirteen terms",
        "num_traits/lib.rs",
        "(1..=14)"
            => "(1..=13)",
    ),
    wrong!(
        "angle not reduced by its sign",
        "num_traits/lib.rs",
        "a > PI"
            => "false && a > PI",
    ),
    wrong!(
        hidden "the sum over the vertices begins with +0",
        "dots of four without +0",
        "del_geo_core/vecn.rs",
        "(0..N).fold(T::zero(), |sum, i| sum + a[i] * b[i])"
            => "(1..N).fold(a[0] * b[0], |sum, i| sum + a[i] * b[i])",
    ),
    wrong!(
        hidden "it differs in the signs of zeros only, and the solution, a sum from +0, does not see them",
        "products of four without +0",
        "del_geo_core/matn_col_major.rs",
        "(0..N).fold(T::zero(), |sum, j| sum + a[i + N * j] * v[j])"
            => "(1..N).fold(a[i] * v[0], |sum, j| sum + a[i + N * j] * v[j])",
    ),
    wrong!(
        "product summed downward",
        "del_geo_core/matn_col_major.rs",
        "(0..N).fold(T::zero(), |sum, j| sum + a[i + N * j] * v[j])"
            => "(0..N).rev().fold(T::zero(), |sum, j| sum + a[i + N * j] * v[j])",
    ),
    wrong!(
        "columns of a row downward",
        "del_msh_cpu/lib.rs",
        "idx2col.extend((first..end).filter(|&col| col != row));"
            => "idx2col.extend((first..end).rev().filter(|&col| col != row));",
    ),
];
