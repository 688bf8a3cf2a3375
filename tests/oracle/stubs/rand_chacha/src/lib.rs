//! Stand-in for `rand_chacha`: the name only.

pub struct ChaChaRng;

impl rand::Rng for ChaChaRng {}

impl rand::SeedableRng for ChaChaRng {
    fn seed_from_u64(_seed: u64) -> Self {
        ChaChaRng
    }
}
