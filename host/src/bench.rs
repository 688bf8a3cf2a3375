//! The bench with its memory.

use crate::ffi::{self, Changed, Kept, Lent, Record, Report};
use crate::{Component, Kind, Pick, Refusal, Settings, StepReport, Strand, SEATS};

/// Six seats, each empty or with a strand, and the areas that the library works in.
#[derive(Clone, Debug)]
pub struct Bench {
    record: Record,
    rest: Vec<f64>,
    drape: Vec<f64>,
    pins: Vec<u8>,
    work: Vec<f64>,
}

impl Default for Bench {
    fn default() -> Bench {
        Bench::new()
    }
}

impl Bench {
    /// A bench with empty seats.
    pub fn new() -> Bench {
        Bench {
            record: Record::default(),
            rest: vec![0.0; ffi::REST],
            drape: vec![0.0; ffi::DRAPE],
            pins: vec![0; ffi::PINS],
            work: vec![0.0; ffi::WORK],
        }
    }

    /// Lays a strand on an empty seat, unpinned and at rest.
    pub fn load(&mut self, seat: usize, strand: &Strand) -> Result<(), Refusal> {
        let kept = Kept { rest: &mut self.rest, drape: &mut self.drape, pins: &mut self.pins };
        let after = ffi::load(self.record, kept, seat, strand);
        self.changed(after)
    }

    /// Empties a seat.
    ///
    /// ```
    /// use hairbench::{Bench, Refusal};
    /// assert_eq!(Bench::new().unload(3), Err(Refusal::SeatState));
    /// ```
    pub fn unload(&mut self, seat: usize) -> Result<(), Refusal> {
        let kept = Kept { rest: &mut self.rest, drape: &mut self.drape, pins: &mut self.pins };
        let after = ffi::unload(self.record, kept, seat);
        self.changed(after)
    }

    /// Pins a component of a vertex, or frees it.
    pub fn pin(&mut self, seat: usize, vertex: usize, component: Component, pinned: bool) -> Result<(), Refusal> {
        let place = (vertex, component as usize);
        answer(ffi::pin(self.record, &mut self.pins, seat, place, pinned as u8))
    }

    /// Three numbers a vertex of what the kind names.
    pub fn look(&self, seat: usize, kind: Kind) -> Result<&[f64], Refusal> {
        let number = kind as usize;
        answer(ffi::companion(self.record, &self.rest, &self.drape, seat, number))?;
        let place = ffi::look(self.record, &self.rest, &self.drape, seat, number);
        let area = match kind {
            Kind::RestPositions | Kind::RestFrames => &self.rest,
            Kind::DrapePositions | Kind::DrapeFrames | Kind::Velocities => &self.drape,
        };
        Ok(&area[place.at..place.at + place.count])
    }

    /// A step towards the drape of least energy.
    pub fn step_static(&mut self, seat: usize, pick: Option<Pick>) -> Result<StepReport, Refusal> {
        let record = self.record;
        report(ffi::step_static(record, self.lent(), seat, pick))
    }

    /// A step of dt in time, with inertia.
    pub fn step_dynamic(&mut self, seat: usize, pick: Option<Pick>, dt: f64) -> Result<StepReport, Refusal> {
        let record = self.record;
        report(ffi::step_dynamic(record, self.lent(), seat, pick, dt))
    }

    /// The number of a seat's vertices; 0 where it is empty or not there.
    pub fn count(&self, seat: usize) -> usize {
        self.record.counts.get(seat).copied().unwrap_or(0)
    }

    /// The settings of the strand on a seat.
    pub fn settings(&self, seat: usize) -> Option<Settings> {
        let taken = self.count(seat) > 0;
        taken.then(|| self.record.settings[seat].into())
    }

    /// Whether a component of a vertex is pinned; false where there is no such vertex.
    pub fn is_pinned(&self, seat: usize, vertex: usize, component: Component) -> bool {
        vertex < self.count(seat) && self.pins[128 * seat + 4 * vertex + component as usize] != 0
    }

    /// The area in which steps work. Whatever it holds, no answer and no strand depends on it.
    pub fn work_mut(&mut self) -> &mut [f64] {
        &mut self.work
    }

    /// Everything that the bench keeps of a seat, as bits: count, settings, rest, drape with velocities and working copy,
    /// pins. None where there is no such seat.
    ///
    /// ```
    /// use hairbench::Bench;
    /// assert!(Bench::new().strand_bits(0).unwrap().iter().all(|&bits| bits == 0));
    /// assert_eq!(Bench::new().strand_bits(6), None);
    /// ```
    pub fn strand_bits(&self, seat: usize) -> Option<Vec<u64>> {
        if seat >= SEATS {
            return None;
        }
        let Settings { stiff_length, stiff_bendtwist: [b0, b1, b2], conv_ratio } = self.record.settings[seat].into();
        let mut bits = vec![self.record.counts[seat] as u64];
        bits.extend([stiff_length, b0, b1, b2, conv_ratio].map(f64::to_bits));
        bits.extend(self.rest[192 * seat..192 * (seat + 1)].iter().map(|x| x.to_bits()));
        bits.extend(self.drape[384 * seat..384 * (seat + 1)].iter().map(|x| x.to_bits()));
        bits.extend(self.pins[128 * seat..128 * (seat + 1)].iter().map(|&b| b as u64));
        Some(bits)
    }

    /// Takes over the record that a load or an unload left.
    fn changed(&mut self, after: Changed) -> Result<(), Refusal> {
        self.record = after.seats;
        answer(after.refusal)
    }

    fn lent(&mut self) -> Lent<'_> {
        Lent { rest: &self.rest, drape: &mut self.drape, pins: &self.pins, work: &mut self.work }
    }
}

/// What a number says; the library answers 0 to 11.
fn answer(number: u8) -> Result<(), Refusal> {
    match number {
        0 => Ok(()),
        k => Err(Refusal::from_number(k).expect("the library answers 0 to 11")),
    }
}

fn report(told: Report) -> Result<StepReport, Refusal> {
    answer(told.number)?;
    Ok(StepReport { energy: told.energy, count: told.count, ratio: told.ratio })
}
