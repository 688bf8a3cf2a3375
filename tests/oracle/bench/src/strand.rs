//! A seat's parts of the areas, and the strand in them as the source's simulator.

use machine::{Record, Stepped};
use reference::rod3_darboux::RodSimulator;
use reference::sparse_square::Matrix;
use std::ops::Range;

pub type Rod = RodSimulator<f64>;

pub fn rest_part(seat: usize) -> Range<usize> {
    192 * seat..192 * (seat + 1)
}

pub fn drape_part(seat: usize) -> Range<usize> {
    384 * seat..384 * (seat + 1)
}

pub fn pin_part(seat: usize) -> Range<usize> {
    128 * seat..128 * (seat + 1)
}

/// The n vertices of the strand; nothing past them is read.
pub fn rod(record: &Record, areas: &Stepped, seat: usize) -> Rod {
    let n = record.counts[seat];
    let settings = record.settings[seat];
    let rest = |part: usize| areas.rest[rest_part(seat)][96 * part..][..3 * n].to_vec();
    let drape = |part: usize| areas.drape[drape_part(seat)][96 * part..][..3 * n].to_vec();
    let (pins, _) = areas.pins[pin_part(seat)].as_chunks();
    let mut rod = RodSimulator {
        vtx2xyz_ini: rest(0),
        vtx2framex_ini: rest(1),
        vtx2xyz_def: drape(0),
        vtx2framex_def: drape(1),
        vtx2velo: drape(2),
        vtx2xyz_tmp: drape(3),
        vtx2isfix: pins[..n].iter().map(|p| p.map(i32::from)).collect(),
        w: 0.0,
        dw: vec![],
        ddw: Matrix::new(),
        conv_ratio: settings.conv_ratio,
        stiff_length: settings.stiff_length,
        stiff_bendtwist: settings.stiff_bendtwist(),
    };
    rod.allocate_memory_for_linear_system();
    rod
}

pub fn put_drape(drape: &mut [f64], seat: usize, rod: &Rod) {
    let drape = &mut drape[drape_part(seat)];
    let parts = [
        &rod.vtx2xyz_def,
        &rod.vtx2framex_def,
        &rod.vtx2velo,
        &rod.vtx2xyz_tmp,
    ];
    for (place, part) in parts.iter().enumerate() {
        drape[96 * place..][..part.len()].copy_from_slice(part);
    }
}
