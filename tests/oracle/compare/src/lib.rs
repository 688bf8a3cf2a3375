//! Two benches on the same lists of calls, compared bit by bit after every call; and one bench's seats,
//! each against its solo run.

mod arguments;
mod author;
pub mod compare;
pub mod crossings;
pub mod examples;
pub mod isolation;
pub mod lists;
mod numbers;
pub mod rng;
pub mod roots;
pub mod shapes;
pub mod shrink;

use machine::{Call, Machine, Poke};

/// What happens to a bench: a call, or a change by another hand.
#[derive(Clone, Debug)]
pub enum Event {
    Call(Call),
    Poke(Poke),
}

/// How a bench that is compared is made anew.
pub type Maker<'a> = &'a dyn Fn() -> Box<dyn Machine>;
