//! What a bench is asked and what it answers, so that several can be asked the same: document 01,
//! "The areas". A bench that is to be compared implements `Machine`.

mod bench;
mod call;
#[path = "../../../../host/include/hairbench.rs"]
pub mod exported;
mod record;

pub use bench::{Bench, Poke, SPARE};
pub use call::{perform, Answer, Call, Lengths, Request, Shown};
pub use exported::{Record, Settings};

/// Numbers or bytes of the lent areas.
pub const REST: usize = 1152;
pub const DRAPE: usize = 2304;
pub const PINS: usize = 768;
pub const WORK: usize = 3264;

/// A vertex and its goal.
pub type Pick = Option<(usize, [f64; 3])>;

/// The number that a step is refused with, 0 for none, and its numbers, zeros where it is refused.
#[derive(Clone, Copy, Debug, Default)]
pub struct StepNumbers {
    pub refusal: u8,
    pub energy: f64,
    pub count: usize,
    pub ratio: f64,
}

/// The areas that a load or an unload is lent.
pub struct Areas<'a> {
    pub rest: &'a mut [f64],
    pub drape: &'a mut [f64],
    pub pins: &'a mut [u8],
}

/// The areas that a look is lent; what it hands back is a part of one of them.
#[derive(Clone, Copy)]
pub struct Looked<'a> {
    pub rest: &'a [f64],
    pub drape: &'a [f64],
}

/// The areas that a step is lent.
pub struct Stepped<'a> {
    pub rest: &'a [f64],
    pub drape: &'a mut [f64],
    pub pins: &'a [u8],
    pub work: &'a mut [f64],
}

impl Stepped<'_> {
    /// The same areas, lent for a shorter time.
    pub fn lent_on(&mut self) -> Stepped<'_> {
        Stepped {
            rest: self.rest,
            drape: self.drape,
            pins: self.pins,
            work: self.work,
        }
    }
}

/// What a load gives.
#[derive(Clone, Copy)]
pub struct Load<'a> {
    pub n: usize,
    pub settings: Settings,
    pub positions: &'a [f64],
    pub frames: &'a [f64],
}

/// The seven calls. All but look and the steps answer the number that they are refused with, 0 for
/// none. Areas may have any length and any content.
pub trait Machine {
    fn load(&mut self, record: &mut Record, areas: Areas, seat: usize, load: Load) -> u8;
    fn unload(&mut self, record: &mut Record, areas: Areas, seat: usize) -> u8;
    /// The place is the vertex and the component.
    fn pin(
        &mut self,
        record: &Record,
        pins: &mut [u8],
        seat: usize,
        place: (usize, usize),
        byte: u8,
    ) -> u8;
    fn look<'a>(
        &mut self,
        record: &Record,
        areas: Looked<'a>,
        seat: usize,
        kind: usize,
    ) -> &'a [f64];
    fn companion(&mut self, record: &Record, areas: Looked, seat: usize, kind: usize) -> u8;
    fn step_static(
        &mut self,
        record: &Record,
        areas: Stepped,
        seat: usize,
        pick: Pick,
    ) -> StepNumbers;
    fn step_dynamic(
        &mut self,
        record: &Record,
        areas: Stepped,
        seat: usize,
        pick: Pick,
        dt: f64,
    ) -> StepNumbers;
}

/// Whether two numbers have the same bits, where the pattern of a NaN is free.
pub fn same(a: f64, b: f64) -> bool {
    a.to_bits() == b.to_bits() || a.is_nan() && b.is_nan()
}

pub fn same_all(a: &[f64], b: &[f64]) -> bool {
    a.len() == b.len() && a.iter().zip(b).all(|(&a, &b)| same(a, b))
}
