//! The unchanged source of del-fem's rod simulator, over stub crates. Nothing of it is copied:
//! the build script names its files, and the compiler reads them where they lie.

// The source is not ours to tidy.
#![allow(clippy::all, mismatched_lifetime_syntaxes)]

include!(concat!(env!("OUT_DIR"), "/modules.rs"));
pub mod rod3_darboux;
pub mod sparse_ilu;
