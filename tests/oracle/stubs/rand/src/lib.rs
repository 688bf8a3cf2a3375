//! Stand-in for `rand`: names only, so that the random perturbation, which is left out of the
//! comparison, compiles. Drawing a number panics.

pub mod distr {
    pub struct StandardUniform;
    pub trait Distribution<T> {}
    impl Distribution<f64> for StandardUniform {}
}

pub mod prelude {
    pub use crate::distr::Distribution;
}

pub trait Rng {
    fn random<T>(&mut self) -> T
    where
        distr::StandardUniform: distr::Distribution<T>,
    {
        unimplemented!("random numbers are left out")
    }
}

pub trait SeedableRng {
    fn seed_from_u64(seed: u64) -> Self;
}
