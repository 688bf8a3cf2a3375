//! The whole simulator beside a step.

use crate::calls::step;
use crate::strand::{drape_part, put_drape, rod};
use machine::{same, same_all, Pick, Record, StepNumbers, Stepped};

/// A step, after which, if it is accepted, the simulator's own `update_static` or `update_dynamic` is
/// made on a copy of the strand.
pub fn checked_step(
    record: &Record,
    mut areas: Stepped,
    seat: usize,
    pick: Pick,
    dt: Option<f64>,
) -> StepNumbers {
    let mut before = areas.drape.to_vec();
    let numbers = step(record, areas.lent_on(), seat, pick, dt);
    if numbers.refusal == 0 {
        let copied = Stepped {
            drape: &mut before,
            ..areas.lent_on()
        };
        let energy = whole_step(record, copied, seat, pick, dt);
        assert!(same(energy, numbers.energy));
        let part = drape_part(seat);
        assert!(same_all(&before[part.clone()], &areas.drape[part]));
    }
    numbers
}

/// The energy; the drape is as the simulator leaves it.
fn whole_step(record: &Record, areas: Stepped, seat: usize, pick: Pick, dt: Option<f64>) -> f64 {
    let mut whole = rod(record, &areas, seat);
    match dt {
        None => whole.update_static(&pick),
        Some(dt) => whole.update_dynamic(&pick, dt),
    }
    put_drape(areas.drape, seat, &whole);
    whole.w
}
