//! The library's calls behind safe functions; all `unsafe` of this crate is here.
//!
//! What the library asks of a caller (include/hairbench.h), and why each call below gives it:
//! - pointers are not null, aligned, and good for the lengths passed with them: both come from the same slice;
//! - what a call writes overlaps nothing else that it is given: that is an exclusive reference, areas that are only read
//!   and lists are shared ones, and the record goes by value;
//! - numbers are rounded to nearest, and small ones kept: Rust lets no program have it otherwise.
//!
//! The library holds no pointer after a call, allocates nothing and calls nothing back.
//!
//! Lengths, contents and other arguments are free: the library checks them and answers a number.

#[path = "../include/hairbench.rs"]
#[allow(dead_code)] // the root has no caller here
mod exported;

use crate::{Pick, Settings, Strand};
pub(crate) use exported::{Changed, Place, Record, Report};

/// Numbers or bytes of the areas.
pub(crate) const REST: usize = 1152;
pub(crate) const DRAPE: usize = 2304;
pub(crate) const PINS: usize = 768;
pub(crate) const WORK: usize = 3264;

impl From<Settings> for exported::Settings {
    fn from(settings: Settings) -> exported::Settings {
        let Settings { stiff_length, stiff_bendtwist: [b0, b1, b2], conv_ratio } = settings;
        exported::Settings {
            stiff_length,
            stiff_bendtwist0: b0,
            stiff_bendtwist1: b1,
            stiff_bendtwist2: b2,
            conv_ratio,
        }
    }
}

impl From<exported::Settings> for Settings {
    fn from(s: exported::Settings) -> Settings {
        let stiff_bendtwist = [s.stiff_bendtwist0, s.stiff_bendtwist1, s.stiff_bendtwist2];
        Settings { stiff_length: s.stiff_length, stiff_bendtwist, conv_ratio: s.conv_ratio }
    }
}

/// The areas that a step is lent.
pub(crate) struct Lent<'a> {
    pub rest: &'a [f64],
    pub drape: &'a mut [f64],
    pub pins: &'a [u8],
    pub work: &'a mut [f64],
}

/// The three areas of a load or an unload.
pub(crate) struct Kept<'a> {
    pub rest: &'a mut [f64],
    pub drape: &'a mut [f64],
    pub pins: &'a mut [u8],
}

pub(crate) fn load(record: Record, kept: Kept, seat: usize, strand: &Strand) -> Changed {
    let Kept { rest, drape, pins } = kept;
    let Strand { n, settings, positions, frames } = *strand;
    // Sound: pointer and length of each slice; the three areas are exclusive references, the lists shared ones that the
    // library only reads; the record goes by value.
    unsafe {
        exported::hairbench_load_value(
            record,
            rest.as_mut_ptr(),
            rest.len(),
            drape.as_mut_ptr(),
            drape.len(),
            pins.as_mut_ptr(),
            pins.len(),
            seat,
            n,
            settings.into(),
            positions.as_ptr(),
            positions.len(),
            frames.as_ptr(),
            frames.len(),
        )
    }
}

pub(crate) fn unload(record: Record, kept: Kept, seat: usize) -> Changed {
    let Kept { rest, drape, pins } = kept;
    // Sound: pointer and length of each slice; the three areas are exclusive references; the record goes by value.
    unsafe {
        exported::hairbench_unload_value(
            record,
            rest.as_mut_ptr(),
            rest.len(),
            drape.as_mut_ptr(),
            drape.len(),
            pins.as_mut_ptr(),
            pins.len(),
            seat,
        )
    }
}

/// The place is the vertex and the component.
pub(crate) fn pin(record: Record, pins: &mut [u8], seat: usize, place: (usize, usize), byte: u8) -> u8 {
    // Sound: pointer and length of the one area, an exclusive reference; the record goes by value.
    unsafe { exported::hairbench_pin(record, pins.as_mut_ptr(), pins.len(), seat, place.0, place.1, byte) }
}

pub(crate) fn look(record: Record, rest: &[f64], drape: &[f64], seat: usize, kind: usize) -> Place {
    // Sound: pointer and length of each slice; the library only reads them.
    unsafe { exported::hairbench_look(record, rest.as_ptr(), rest.len(), drape.as_ptr(), drape.len(), seat, kind) }
}

pub(crate) fn companion(record: Record, rest: &[f64], drape: &[f64], seat: usize, kind: usize) -> u8 {
    // Sound: pointer and length of each slice; the library only reads them.
    unsafe { exported::hairbench_companion(record, rest.as_ptr(), rest.len(), drape.as_ptr(), drape.len(), seat, kind) }
}

/// A pick as the library takes it: 0 for none, then vertex and goal.
fn flat(pick: Option<Pick>) -> (u8, usize, [f64; 3]) {
    match pick {
        None => (0, 0, [0.0; 3]),
        Some(Pick { vertex, goal }) => (1, vertex, goal),
    }
}

pub(crate) fn step_static(record: Record, lent: Lent, seat: usize, pick: Option<Pick>) -> Report {
    let Lent { rest, drape, pins, work } = lent;
    let (flag, vertex, [x, y, z]) = flat(pick);
    // Sound: pointer and length of each slice; drape and work are exclusive references, rest and pins are only read.
    unsafe {
        exported::hairbench_step_static(
            record,
            rest.as_ptr(),
            rest.len(),
            drape.as_mut_ptr(),
            drape.len(),
            pins.as_ptr(),
            pins.len(),
            work.as_mut_ptr(),
            work.len(),
            seat,
            flag,
            vertex,
            x,
            y,
            z,
        )
    }
}

pub(crate) fn step_dynamic(record: Record, lent: Lent, seat: usize, pick: Option<Pick>, dt: f64) -> Report {
    let Lent { rest, drape, pins, work } = lent;
    let (flag, vertex, [x, y, z]) = flat(pick);
    // Sound: as for the static step.
    unsafe {
        exported::hairbench_step_dynamic(
            record,
            rest.as_ptr(),
            rest.len(),
            drape.as_mut_ptr(),
            drape.len(),
            pins.as_ptr(),
            pins.len(),
            work.as_mut_ptr(),
            work.len(),
            seat,
            flag,
            vertex,
            x,
            y,
            z,
            dt,
        )
    }
}

#[cfg(test)]
mod tests {
    use super::*;

    #[test]
    fn the_layout_is_that_of_the_header() {
        assert_eq!(std::mem::size_of::<exported::Settings>(), 40);
        assert_eq!(std::mem::size_of::<Record>(), 6 * 8 + 6 * 40);
        assert_eq!(std::mem::size_of::<Changed>(), 6 * 8 + 6 * 40 + 8);
        assert_eq!(std::mem::size_of::<Report>(), 32);
        assert_eq!(std::mem::size_of::<Place>(), 16);
    }

    #[test]
    fn the_lengths_are_those_of_the_header() {
        let header = include_str!("../include/hairbench.h");
        for (name, length) in [
            ("SEATS", crate::SEATS),
            ("VERTICES", crate::VERTICES),
            ("REST", REST),
            ("DRAPE", DRAPE),
            ("PINS", PINS),
            ("WORK", WORK),
        ] {
            assert!(header.contains(&format!("#define HAIRBENCH_{name} {length}\n")), "{name}");
        }
    }

    #[test]
    fn areas_of_a_wrong_length_are_refused_with_1() {
        let mut pins = [7u8; PINS];
        assert_eq!(pin(Record::default(), &mut pins[1..], 0, (0, 0), 1), 1);
        assert_eq!(pin(Record::default(), &mut [], 0, (0, 0), 1), 1);
        assert_eq!(pins, [7u8; PINS]);
        let (rest, drape) = ([0.0; REST], [0.0; DRAPE]);
        assert_eq!(companion(Record::default(), &rest[..7], &drape, 0, 0), 1);
        let refused = Place { at: 0, count: 0 };
        assert_eq!(look(Record::default(), &rest[..7], &drape, 0, 0), refused);
    }

    #[test]
    fn a_record_that_no_call_leaves_is_refused_with_1() {
        let mut record = Record::default();
        record.counts[3] = 33;
        assert_eq!(pin(record, &mut [0; PINS], 0, (0, 0), 1), 1);
        record.counts[3] = 2;
        record.settings[3].conv_ratio = -1.0;
        assert_eq!(pin(record, &mut [0; PINS], 0, (0, 0), 1), 1);
        record.settings[3].conv_ratio = 0.0;
        assert_eq!(pin(record, &mut [0; PINS], 3, (0, 0), 1), 0);
    }
}
