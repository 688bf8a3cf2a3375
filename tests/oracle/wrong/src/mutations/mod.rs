//! The mutations: pieces of text of the source, the stubs or the reference bench, and what stands
//! there when the mutation is on. `ROOT::` is the root of this crate. What holds `SWITCH` stands there
//! always, and asks the switch itself. The build script stops unless each piece stands in its file
//! exactly once.

mod bench;
mod elements;
mod errors;
mod late_refusals;
mod refusals;
mod solve;
mod step;
mod vectors;

pub struct Edit {
    pub file: &'static str,
    pub original: &'static str,
    pub changed: &'static str,
}

pub struct Mutation {
    pub name: &'static str,
    /// Why no step can show it, where none can.
    pub hidden: Option<&'static str>,
    pub edits: &'static [Edit],
}

/// One mutation of one file.
macro_rules! wrong {
    ($name:literal, $file:literal, $($original:literal => $changed:literal),+ $(,)?) => {
        wrong!(@ $name, None, $file, $($original => $changed),+)
    };
    (hidden $why:literal, $name:literal, $file:literal, $($original:literal => $changed:literal),+ $(,)?) => {
        wrong!(@ $name, Some($why), $file, $($original => $changed),+)
    };
    (@ $name:literal, $hidden:expr, $file:literal, $($original:literal => $changed:literal),+) => {
        $crate::mutations::Mutation {
            name: $name,
            hidden: $hidden,
            edits: &[$($crate::mutations::Edit {
                file: $file,
                original: $original,
                changed: $changed,
            }),+],
        }
    };
}
use wrong;

/// All, in the order of their numbers, which begin with 1.
pub fn all() -> Vec<&'static Mutation> {
    let groups = [
        errors::ALL,
        elements::ALL,
        vectors::ALL,
        solve::ALL,
        step::ALL,
        bench::ALL,
        refusals::ALL,
        late_refusals::ALL,
    ];
    groups.into_iter().flatten().collect()
}
