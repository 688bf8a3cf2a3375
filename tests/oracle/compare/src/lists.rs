//! Random lists of calls from the new bench.

use crate::author::Author;
use crate::rng::Rng;
use crate::Event;

/// How wild a list is, as probabilities.
#[derive(Clone, Copy)]
pub struct Taste {
    /// That an argument is not a usual one.
    pub wild: f64,
    /// That another hand changes record or areas before a call.
    pub poke: f64,
    /// That rest, drape or pins are lent in another length.
    pub lengths: f64,
    /// That the work area is.
    pub work: f64,
}

pub const TYPICAL: Taste = Taste {
    wild: 0.0,
    poke: 0.0,
    lengths: 0.0,
    work: 0.0,
};

pub const WILD: Taste = Taste {
    wild: 0.15,
    poke: 0.15,
    lengths: 0.03,
    work: 0.02,
};

/// For solo runs: no other hand, and the bench's own areas.
pub const CALLS: Taste = Taste {
    wild: 0.08,
    poke: 0.0,
    lengths: 0.0,
    work: 0.05,
};

pub fn list(seed: u64, taste: Taste) -> Vec<Event> {
    let mut rng = Rng::new(seed);
    let length = 4 + rng.below(36);
    let seats = (0..1 + rng.below(3)).map(|_| rng.below(6)).collect();
    let mut author = Author::new(rng, taste, seats);
    (0..length).flat_map(|_| author.events()).collect()
}
