//! What some mutations do in place of a line.

use crate::bench::strand::Rod;
use crate::del_geo_core::matn_col_major::mult_vec;
use crate::del_geo_core::vecn::add_in_place;
use crate::num_traits::Float;
use crate::rod3_darboux::{orthonormalize_framex_for_hair, update_solution_hair};
use crate::sparse_square::MatrixRef;
use std::cell::{Cell, RefCell};

/// Where the old product stands in the work area.
const PRODUCT: usize = 2464 + 3 * 128;

thread_local! {
    /// The product's part of the work area lent to the step that runs.
    static OLD: RefCell<Vec<f64>> = const { RefCell::new(vec![]) };
    /// The most vertices that a step had so far.
    static LONGEST: Cell<usize> = const { Cell::new(0) };
    /// Which seats have been stepped.
    static STEPPED: Cell<[bool; 6]> = const { Cell::new([false; 6]) };
}

pub fn forget() {
    LONGEST.set(0);
    STEPPED.set([false; 6]);
}

/// Whether the seat has been stepped before.
pub fn again(seat: usize) -> bool {
    let mut stepped = STEPPED.get();
    let before = std::mem::replace(&mut stepped[seat], true);
    STEPPED.set(stepped);
    before
}

pub fn lend(work: &[f64]) {
    let product = work.get(PRODUCT..PRODUCT + 128).unwrap_or(&[]);
    OLD.with_borrow_mut(|old| *old = product.to_vec());
}

/// The product as it was left, not cleared.
pub fn product(n: usize) -> Vec<[f64; 4]> {
    OLD.with_borrow(|old| old.as_chunks().0[..n].to_vec())
}

/// Cleared only when the strand is longer than any before.
pub fn cleared_when_longer(n: usize) -> Vec<[f64; 4]> {
    match LONGEST.get() < n {
        true => {
            LONGEST.set(n);
            vec![[0.0; 4]; n]
        }
        false => product(n),
    }
}

/// The numbers below n, upward or downward.
pub fn order(n: usize, downward: bool) -> Vec<usize> {
    let mut order: Vec<usize> = (0..n).collect();
    if downward {
        order.reverse();
    }
    order
}

/// The product with the matrix, each row's diagonal block before the others.
pub fn diagonal_first<T: Float, const N: usize, const NN: usize>(
    mat: &MatrixRef<T, NN>,
    y: &mut [[T; N]],
    x: &[[T; N]],
) {
    for row in 0..mat.num_blk {
        y[row] = y[row].map(|y| y * T::zero());
        add_in_place(&mut y[row], &mult_vec(&mat.row2val[row], &x[row]));
        for idx in mat.row2idx[row]..mat.row2idx[row + 1] {
            let product = mult_vec(&mat.idx2val[idx], &x[mat.idx2col[idx]]);
            add_in_place(&mut y[row], &product);
        }
    }
}

/// `update_solution_hair`, but the frames turn after the positions have moved.
pub fn moved_first(xyz: &mut [f64], framex: &mut [f64], u: &[[f64; 4]], pins: &[[i32; 4]]) {
    let twists: Vec<_> = pins.iter().map(|&[x, y, z, _]| [x, y, z, 1]).collect();
    update_solution_hair(xyz, framex, u, &twists);
    let places: Vec<_> = pins
        .iter()
        .map(|&[_, _, _, twist]| [1, 1, 1, twist])
        .collect();
    update_solution_hair(xyz, framex, u, &places);
}

/// The frames are made square to their edges, but for those of a pinned twist.
pub fn orthonormalize_unpinned(rod: &mut Rod, xyz: &[f64]) {
    let before = rod.vtx2framex_def.clone();
    orthonormalize_framex_for_hair(&mut rod.vtx2framex_def, xyz);
    for (i, pins) in rod.vtx2isfix.iter().enumerate() {
        if pins[3] != 0 {
            rod.vtx2framex_def[3 * i..3 * i + 3].copy_from_slice(&before[3 * i..3 * i + 3]);
        }
    }
}
