//! The record and the three areas of a bench, as the caller keeps them.

use crate::{same, same_all, Record, Settings, DRAPE, PINS, REST};

/// Each area is kept with so many places past its end, so that a longer one can be lent.
pub const SPARE: usize = 4;

#[derive(Clone)]
pub struct Bench {
    pub record: Record,
    pub rest: Vec<f64>,
    pub drape: Vec<f64>,
    pub pins: Vec<u8>,
}

/// A change of record or areas that no call made.
#[derive(Clone, Copy, Debug)]
pub enum Poke {
    Rest(usize, f64),
    Drape(usize, f64),
    Pins(usize, u8),
    Count(usize, usize),
    Setting(usize, usize, f64),
}

impl Bench {
    /// All zero.
    pub fn new() -> Bench {
        Bench {
            record: Record::default(),
            rest: vec![0.0; REST + SPARE],
            drape: vec![0.0; DRAPE + SPARE],
            pins: vec![0; PINS + SPARE],
        }
    }

    pub fn poke(&mut self, poke: Poke) {
        match poke {
            Poke::Rest(i, x) => self.rest[i] = x,
            Poke::Drape(i, x) => self.drape[i] = x,
            Poke::Pins(i, byte) => self.pins[i] = byte,
            Poke::Count(seat, n) => self.record.counts[seat] = n,
            Poke::Setting(seat, i, x) => {
                let mut numbers = self.record.settings[seat].numbers();
                numbers[i] = x;
                self.record.settings[seat] = Settings::from_numbers(numbers);
            }
        }
    }

    /// What is not the same, if anything is not.
    pub fn difference(&self, other: &Bench) -> Option<String> {
        if !self.record.same(&other.record) {
            return Some(format!("record {:?} {:?}", self.record, other.record));
        }
        if self.pins != other.pins {
            return Some("pins".to_string());
        }
        first_place("rest", &self.rest, &other.rest)
            .or_else(|| first_place("drape", &self.drape, &other.drape))
    }

    /// Whether one seat has the same strand in both.
    pub fn same_strand(&self, other: &Bench, seat: usize) -> bool {
        let settings = |b: &Bench| b.record.settings[seat].numbers();
        let rest = 192 * seat..192 * (seat + 1);
        let drape = 384 * seat..384 * (seat + 1);
        let pins = 128 * seat..128 * (seat + 1);
        self.record.counts[seat] == other.record.counts[seat]
            && same_all(&settings(self), &settings(other))
            && same_all(&self.rest[rest.clone()], &other.rest[rest])
            && same_all(&self.drape[drape.clone()], &other.drape[drape])
            && self.pins[pins.clone()] == other.pins[pins]
    }
}

impl Default for Bench {
    fn default() -> Bench {
        Bench::new()
    }
}

fn first_place(area: &str, a: &[f64], b: &[f64]) -> Option<String> {
    let i = (0..a.len()).find(|&i| !same(a[i], b[i]))?;
    let (x, y) = (a[i], b[i]);
    Some(format!(
        "{area}[{i}] {x:e} {:016X} {y:e} {:016X}",
        x.to_bits(),
        y.to_bits()
    ))
}
