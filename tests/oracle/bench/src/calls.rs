//! The seven calls, each with its refusals in their order.

use crate::given::{all_finite, decline, edges_fit, good_count, good_record, good_settings};
use crate::step::{update_dynamic, update_static};
use crate::strand::{drape_part, pin_part, put_drape, rest_part, rod, Rod};
use machine::{Areas, Load, Looked, Pick, Record, Settings, StepNumbers, Stepped};
use machine::{DRAPE, PINS, REST, WORK};

/// 0 for no refusal.
fn number(result: Result<(), u8>) -> u8 {
    result.err().unwrap_or(0)
}

/// The strand's vertices; none where there is no such seat.
fn count(record: &Record, seat: usize) -> usize {
    record.counts.get(seat).copied().unwrap_or(0)
}

pub fn load(record: &mut Record, areas: Areas, seat: usize, load: Load) -> u8 {
    let result = load_refusal(record, &areas, seat, &load);
    if result.is_ok() {
        record.counts[seat] = load.n;
        record.settings[seat] = load.settings;
        let rest = &mut areas.rest[rest_part(seat)];
        rest.fill(0.0);
        rest[..3 * load.n].copy_from_slice(load.positions);
        rest[96..96 + 3 * load.n].copy_from_slice(load.frames);
        let drape = &mut areas.drape[drape_part(seat)];
        drape[..192].copy_from_slice(rest);
        drape[192..288].fill(0.0);
        drape[288..].copy_from_slice(&rest[..96]);
        areas.pins[pin_part(seat)].fill(0);
    }
    number(result)
}

fn load_refusal(record: &Record, areas: &Areas, seat: usize, load: &Load) -> Result<(), u8> {
    decline(1, !all_lent(areas) || !good_record(record))?;
    decline(2, seat > 5)?;
    decline(3, count(record, seat) != 0)?;
    decline(4, !good_count(load.n) || !lists_fit(load))?;
    decline(6, !given_finite(load) || !good_settings(&load.settings))?;
    decline(7, !edges_fit(load.positions))
}

fn all_lent(areas: &Areas) -> bool {
    areas.rest.len() == REST && areas.drape.len() == DRAPE && areas.pins.len() == PINS
}

fn lists_fit(load: &Load) -> bool {
    load.positions.len() == 3 * load.n && load.frames.len() == 3 * load.n
}

fn given_finite(load: &Load) -> bool {
    all_finite(load.positions) && all_finite(load.frames)
}

pub fn unload(record: &mut Record, areas: Areas, seat: usize) -> u8 {
    let result = unload_refusal(record, &areas, seat);
    if result.is_ok() {
        record.counts[seat] = 0;
        record.settings[seat] = Settings::default();
        areas.rest[rest_part(seat)].fill(0.0);
        areas.drape[drape_part(seat)].fill(0.0);
        areas.pins[pin_part(seat)].fill(0);
    }
    number(result)
}

fn unload_refusal(record: &Record, areas: &Areas, seat: usize) -> Result<(), u8> {
    decline(1, !all_lent(areas) || !good_record(record))?;
    decline(2, seat > 5)?;
    decline(3, count(record, seat) == 0)
}

pub fn pin(
    record: &Record,
    pins: &mut [u8],
    seat: usize,
    (vertex, component): (usize, usize),
    byte: u8,
) -> u8 {
    let result = pin_refusal(record, pins, seat, vertex, component);
    if result.is_ok() {
        pins[pin_part(seat)][4 * vertex + component] = byte;
    }
    number(result)
}

fn pin_refusal(
    record: &Record,
    pins: &[u8],
    seat: usize,
    vertex: usize,
    component: usize,
) -> Result<(), u8> {
    decline(1, pins.len() != PINS || !good_record(record))?;
    decline(2, seat > 5)?;
    decline(3, count(record, seat) == 0)?;
    decline(5, vertex >= count(record, seat) || component > 3)
}

pub fn look<'a>(record: &Record, areas: Looked<'a>, seat: usize, kind: usize) -> &'a [f64] {
    if look_refusal(record, areas, seat, kind).is_err() {
        return &[];
    }
    let part = match kind {
        0 | 1 => &areas.rest[rest_part(seat)][96 * kind..],
        _ => &areas.drape[drape_part(seat)][96 * (kind - 2)..],
    };
    &part[..3 * record.counts[seat]]
}

pub fn companion(record: &Record, areas: Looked, seat: usize, kind: usize) -> u8 {
    number(look_refusal(record, areas, seat, kind))
}

fn look_refusal(record: &Record, areas: Looked, seat: usize, kind: usize) -> Result<(), u8> {
    let lent = areas.rest.len() == REST && areas.drape.len() == DRAPE;
    decline(1, !lent || !good_record(record))?;
    decline(2, seat > 5)?;
    decline(3, count(record, seat) == 0)?;
    decline(5, kind > 4)
}

/// A step of the kind that has a time, or of the other.
pub fn step(
    record: &Record,
    areas: Stepped,
    seat: usize,
    pick: Pick,
    dt: Option<f64>,
) -> StepNumbers {
    match stepped(record, &areas, seat, pick, dt) {
        Ok((numbers, rod)) => {
            put_drape(areas.drape, seat, &rod);
            numbers
        }
        Err(refusal) => StepNumbers {
            refusal,
            ..StepNumbers::default()
        },
    }
}

fn stepped(
    record: &Record,
    areas: &Stepped,
    seat: usize,
    pick: Pick,
    dt: Option<f64>,
) -> Result<(StepNumbers, Rod), u8> {
    step_refusal(record, areas, seat, pick, dt)?;
    let mut rod = rod(record, areas, seat);
    let numbers = match dt {
        None => update_static(&mut rod, pick)?,
        Some(dt) => update_dynamic(&mut rod, pick, dt)?,
    };
    Ok((numbers, rod))
}

/// Those that need no computation: 1 to 6.
fn step_refusal(
    record: &Record,
    areas: &Stepped,
    seat: usize,
    pick: Pick,
    dt: Option<f64>,
) -> Result<(), u8> {
    decline(1, !step_lent(areas) || !good_record(record))?;
    decline(2, seat > 5)?;
    decline(3, count(record, seat) == 0)?;
    decline(5, pick.is_some_and(|(v, _)| v >= count(record, seat)))?;
    decline(6, !goal_finite(pick) || !dt.is_none_or(good_time))
}

fn step_lent(areas: &Stepped) -> bool {
    areas.rest.len() == REST
        && areas.drape.len() == DRAPE
        && areas.pins.len() == PINS
        && areas.work.len() == WORK
}

fn goal_finite(pick: Pick) -> bool {
    pick.is_none_or(|(_, goal)| all_finite(&goal))
}

fn good_time(dt: f64) -> bool {
    dt.is_finite() && dt > 0.0
}
