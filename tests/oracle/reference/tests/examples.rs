//! The reference as a whole, on examples of document 01, and the signs of its zeros.

use reference::rod3_darboux::RodSimulator;
use reference::sparse_square::Matrix;
use reference::spring3::wdwddw_squared_length_difference;

/// A strand at rest, nothing pinned.
fn strand(
    xyz: &[f64],
    framex: &[f64],
    stiff_length: f64,
    stiff_bendtwist: [f64; 3],
) -> RodSimulator<f64> {
    let mut strand = RodSimulator {
        vtx2xyz_ini: xyz.to_vec(),
        vtx2framex_ini: framex.to_vec(),
        vtx2xyz_def: xyz.to_vec(),
        vtx2framex_def: framex.to_vec(),
        vtx2velo: vec![0.0; xyz.len()],
        vtx2xyz_tmp: xyz.to_vec(),
        vtx2isfix: vec![[0; 4]; xyz.len() / 3],
        w: 0.0,
        dw: vec![],
        ddw: Matrix::new(),
        conv_ratio: 1.0 / 1024.0,
        stiff_length,
        stiff_bendtwist,
    };
    strand.allocate_memory_for_linear_system();
    strand
}

/// P7: the picked vertex goes to the goal.
#[test]
fn static_pick() {
    let framex = [0.0, 1.0, 0.0, 0.0, 1.0, 0.0];
    let mut strand = strand(&[0.0, 0.0, 0.0, 1.0, 0.0, 0.0], &framex, 0.0, [0.0; 3]);
    strand.update_static(&Some((1, [0.5, 0.0, 0.0])));
    assert_eq!(strand.w, 0.0);
    assert_eq!(strand.vtx2xyz_def, [0.0, 0.0, 0.0, 0.5, 0.0, 0.0]);
}

/// Both kinds of step on a curved strand that is pinned at one end and picked at the other: the
/// pinned vertices stay, the picked one comes nearer to its goal.
#[test]
fn curved_strand() {
    let xyz = [0.0, 0.0, 0.0, 0.9, 0.1, 0.0, 1.7, 0.6, 0.2, 2.1, 1.4, 0.7];
    let framex = [0.0, 0.0, 1.0].repeat(4);
    let goal = [2.3, 1.1, 0.6];
    let distance = |xyz: &[f64]| (0..3).map(|i| (xyz[9 + i] - goal[i]).abs()).sum::<f64>();
    for dynamic in [false, true] {
        let mut strand = strand(&xyz, &framex, 1.3, [0.7, 0.9, 1.1]);
        strand.vtx2isfix[..2].copy_from_slice(&[[1; 4], [1, 1, 1, 0]]);
        for _ in 0..3 {
            match dynamic {
                false => strand.update_static(&Some((3, goal))),
                true => strand.update_dynamic(&Some((3, goal)), 0.3),
            }
        }
        assert_eq!(strand.vtx2xyz_def[..6], xyz[..6]);
        assert!(
            distance(&strand.vtx2xyz_def) < 0.5 * distance(&xyz),
            "dynamic: {dynamic}"
        );
    }
}

/// A compressed spring along an axis has zeros of both signs in its block: `0*t1` is -0 for a
/// negative t1, and meets a -0 in the edge's row and column but a +0 elsewhere.
#[test]
fn zeros_of_a_compressed_spring() {
    let (_, _, ddw) = wdwddw_squared_length_difference(1.0, &[[0.0; 3], [0.5, 0.0, 0.0]], 1.0);
    let negative_zeros = ddw[0][0].map(|x| x == 0.0 && x.is_sign_negative());
    assert_eq!(
        negative_zeros,
        [false, true, true, true, false, false, true, false, false]
    );
}

/// At rest the factor of the first gradient is -0 (it is `-c`, and c is +0), that of the second +0.
#[test]
fn zeros_of_a_spring_at_rest() {
    let (_, dw, _) = wdwddw_squared_length_difference(1.0, &[[0.0; 3], [1.0, 0.0, 0.0]], 1.0);
    let negative_zeros = dw.map(|v| v.map(|x| x == 0.0 && x.is_sign_negative()));
    assert_eq!(negative_zeros, [[false, true, true], [true, false, false]]);
}

/// At stiffness -0, which is not below 0, a spring stores -0; the strand's energy is a sum from +0
/// on, and so +0. A stiffness below 0 makes an energy below 0.
#[test]
fn signs_of_energies() {
    let stored = |stiffness: f64, end: f64| {
        let ends = [[0.0; 3], [end, 0.0, 0.0]];
        wdwddw_squared_length_difference(stiffness, &ends, 1.0).0
    };
    let minus_zero = (-0.0f64).to_bits();
    assert_eq!(
        [0.5, 1.0, 2.0].map(|end| stored(-0.0, end).to_bits()),
        [minus_zero; 3]
    );
    let framex = [0.0, 1.0, 0.0, 0.0, 1.0, 0.0];
    let xyz = [0.0, 0.0, 0.0, 1.0, 0.0, 0.0];
    let mut strand = strand(&xyz, &framex, -0.0, [-0.0; 3]);
    strand.update_static(&None);
    assert_eq!(strand.w.to_bits(), 0);
    assert_eq!(stored(-1.0, 2.0), -0.5);
}
