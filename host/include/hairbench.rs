//! The six-seat hair bench for programs in Rust: what libbench_c.a exports. hairbench.h says what each call does, and
//! what it asks of its caller. A crate takes this file in as a module, by `#[path]`, and links the library.

/// A strand's settings: the stiffness against stretch, the three against bend and twist, and the ratio below which
/// a solve ends.
#[repr(C)]
#[derive(Clone, Copy, Debug, Default, PartialEq)]
pub struct Settings {
    pub stiff_length: f64,
    pub stiff_bendtwist0: f64,
    pub stiff_bendtwist1: f64,
    pub stiff_bendtwist2: f64,
    pub conv_ratio: f64,
}

/// Of each seat the number of its strand's vertices, 0 where it is empty, and the settings.
#[repr(C)]
#[derive(Clone, Copy, Debug, Default, PartialEq)]
pub struct Record {
    pub counts: [usize; 6],
    pub settings: [Settings; 6],
}

/// The record after a load or an unload, and the number that the call is refused with, 0 for none.
#[repr(C)]
#[derive(Clone, Copy, Debug, PartialEq)]
pub struct Changed {
    pub seats: Record,
    pub refusal: u8,
}

/// A step's answer: the number that it is refused with, 0 for none, and its numbers.
#[repr(C)]
#[derive(Clone, Copy, Debug, PartialEq)]
pub struct Report {
    pub number: u8,
    pub energy: f64,
    pub count: usize,
    pub ratio: f64,
}

/// Where the numbers of a look stand in the area that its kind chooses, and how many they are.
#[repr(C)]
#[derive(Clone, Copy, Debug, PartialEq)]
pub struct Place {
    pub at: usize,
    pub count: usize,
}

extern "C" {
    pub fn hairbench_load_value(
        record: Record,
        rest: *mut f64,
        rest_length: usize,
        drape: *mut f64,
        drape_length: usize,
        pins: *mut u8,
        pins_length: usize,
        seat: usize,
        n: usize,
        settings: Settings,
        positions: *const f64,
        positions_length: usize,
        frames: *const f64,
        frames_length: usize,
    ) -> Changed;
    pub fn hairbench_unload_value(
        record: Record,
        rest: *mut f64,
        rest_length: usize,
        drape: *mut f64,
        drape_length: usize,
        pins: *mut u8,
        pins_length: usize,
        seat: usize,
    ) -> Changed;
    pub fn hairbench_pin(
        record: Record,
        pins: *mut u8,
        pins_length: usize,
        seat: usize,
        vertex: usize,
        component: usize,
        byte: u8,
    ) -> u8;
    pub fn hairbench_look(
        record: Record,
        rest: *const f64,
        rest_length: usize,
        drape: *const f64,
        drape_length: usize,
        seat: usize,
        kind: usize,
    ) -> Place;
    pub fn hairbench_companion(
        record: Record,
        rest: *const f64,
        rest_length: usize,
        drape: *const f64,
        drape_length: usize,
        seat: usize,
        kind: usize,
    ) -> u8;
    pub fn hairbench_step_static(
        record: Record,
        rest: *const f64,
        rest_length: usize,
        drape: *mut f64,
        drape_length: usize,
        pins: *const u8,
        pins_length: usize,
        work: *mut f64,
        work_length: usize,
        seat: usize,
        flag: u8,
        vertex: usize,
        x: f64,
        y: f64,
        z: f64,
    ) -> Report;
    pub fn hairbench_step_dynamic(
        record: Record,
        rest: *const f64,
        rest_length: usize,
        drape: *mut f64,
        drape_length: usize,
        pins: *const u8,
        pins_length: usize,
        work: *mut f64,
        work_length: usize,
        seat: usize,
        flag: u8,
        vertex: usize,
        x: f64,
        y: f64,
        z: f64,
        dt: f64,
    ) -> Report;
    pub fn hairbench_sqrt(x: f64) -> f64;
}
