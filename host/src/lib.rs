//! The six-seat hair bench: a safe wrapper of the library that `rt lib` writes in crates/bench_c.
//!
//! Hair is laid on a bench of six seats, and each strand is an elastic rod of 2 to 32 vertices that can be
//! pinned, pulled and stepped. A [`Bench`] owns the record and the areas that the library works in. A call that
//! the bench declines answers a [`Refusal`] and leaves everything as it was.
//!
//! ```
//! use hairbench::{Bench, Component, Kind, Pick, Settings, Strand};
//!
//! let mut bench = Bench::new();
//! let strand = Strand {
//!     n: 2,
//!     settings: Settings { stiff_length: 0.0, stiff_bendtwist: [0.0; 3], conv_ratio: 1.0 / 1024.0 },
//!     positions: &[0.0, 0.0, 0.0, 1.0, 0.0, 0.0],
//!     frames: &[0.0, 1.0, 0.0, 0.0, 1.0, 0.0],
//! };
//! bench.load(0, &strand)?;
//! bench.pin(0, 0, Component::X, true)?;
//! let step = bench.step_static(0, Some(Pick { vertex: 1, goal: [0.5, 0.0, 0.0] }))?;
//! assert_eq!(step.count, 1);
//! assert_eq!(bench.look(0, Kind::DrapePositions)?, [0.0, 0.0, 0.0, 0.5, 0.0, 0.0]);
//! # Ok::<(), hairbench::Refusal>(())
//! ```

#![deny(missing_docs)]
#![deny(unsafe_op_in_unsafe_fn)]
#![deny(unsafe_code)]

mod bench;
#[allow(unsafe_code)]
mod ffi;
mod parts;
mod refusal;

pub use bench::Bench;
pub use parts::{Component, Kind, Pick, Settings, StepReport, Strand};
pub use refusal::Refusal;

/// How many seats the bench has.
pub const SEATS: usize = 6;

/// How many vertices a strand may have; the least is 2.
pub const VERTICES: usize = 32;
