//! A script as values: what its lines ask for.

use hairbench::{Component, Kind, Pick, Settings};

/// Steps of `move` in a second.
pub const STEPS_A_SECOND: usize = 30;

/// A seat, or every seat with a strand.
#[derive(Clone, Copy, Debug, PartialEq)]
pub enum Who {
    Seat(usize),
    All,
}

/// A strand as it is loaded: three numbers a vertex in each list.
#[derive(Clone, Debug, PartialEq)]
pub struct Laid {
    pub positions: Vec<f64>,
    pub frames: Vec<f64>,
    pub settings: Settings,
}

#[derive(Clone, Debug, PartialEq)]
pub enum Action {
    Unit(String),
    Load { seat: usize, laid: Laid },
    Unload { seat: usize },
    Pin { seat: usize, vertex: usize, components: Vec<Component>, pinned: bool },
    Pick { seat: usize, pick: Pick },
    Drop { seat: usize },
    Settle { who: Who, steps: usize, tolerance: f64 },
    Move { who: Who, steps: usize },
    Look { seat: usize, kind: Kind },
    Draw { file: String, who: Who },
    Play { file: String, who: Who },
}

/// A line of the script, counted from 1, without its comment.
#[derive(Clone, Debug, PartialEq)]
pub struct Statement {
    pub line: usize,
    pub text: String,
    pub action: Action,
}

/// What is wrong with a line.
#[derive(Clone, Debug, PartialEq)]
pub struct Fault {
    pub line: usize,
    pub message: String,
}
