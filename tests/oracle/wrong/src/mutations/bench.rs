//! Other loads, unloads, pins and looks.

use super::{wrong, Mutation};

pub const ALL: &[Mutation] = &[
    wrong!(
        "only byte 1 pins",
        "bench/strand.rs",
        "p.map(i32::from)"
            => "p.map(|b| i32::from(b == 1))",
    ),
    wrong!(
        "a pin stored as 0 or 1",
        "bench/calls.rs",
        "pins[pin_part(seat)][4 * vertex + component] = byte;"
            => "pins[pin_part(seat)][4 * vertex + component] = byte.min(1);",
    ),
    wrong!(
        "pins of the seat before",
        "bench/strand.rs",
        "areas.pins[pin_part(seat)].as_chunks()"
            => "areas.pins[pin_part(seat.max(1) - 1)].as_chunks()",
    ),
    wrong!(
        "load keeps pins",
        "bench/calls.rs",
        "drape[288..].copy_from_slice(&rest[..96]);
        areas.pins[pin_part(seat)].fill(0);"
            => "drape[288..].copy_from_slice(&rest[..96]);",
    ),
    wrong!(
        "load keeps velocities",
        "bench/calls.rs",
        "drape[192..288].fill(0.0);"
            => "",
    ),
    wrong!(
        "load keeps what lies past n",
        "bench/calls.rs",
        "rest.fill(0.0);"
            => "",
    ),
    wrong!(
        "unload keeps settings",
        "bench/calls.rs",
        "record.settings[seat] = Settings::default();"
            => "",
    ),
    wrong!(
        "unload keeps the rest",
        "bench/calls.rs",
        "areas.rest[rest_part(seat)].fill(0.0);"
            => "",
    ),
    wrong!(
        "unload keeps the drape",
        "bench/calls.rs",
        "areas.drape[drape_part(seat)].fill(0.0);"
            => "",
    ),
    wrong!(
        "look hands back a copy",
        "bench/calls.rs",
        "&part[..3 * record.counts[seat]]"
            => "Box::leak(part[..3 * record.counts[seat]].into())",
    ),
    wrong!(
        "look hands back all 96",
        "bench/calls.rs",
        "&part[..3 * record.counts[seat]]"
            => "&part[..96]",
    ),
    wrong!(
        "look at velocities shows the working copy",
        "bench/calls.rs",
        "96 * (kind - 2)"
            => "96 * (kind - 2 + usize::from(kind == 4))",
    ),
    wrong!(
        "look without its last frame",
        "bench/calls.rs",
        "&part[..3 * record.counts[seat]]"
            => "&part[..3 * (record.counts[seat] - usize::from(kind % 2 == 1))]",
    ),
    wrong!(
        "a load declined with 7 leaves its count",
        "bench/calls.rs",
        "load_refusal(record, &areas, seat, &load);"
            => "{ let r = load_refusal(record, &areas, seat, &load); if SWITCH && r == Err(7) { record.counts[seat] = load.n; } r };",
    ),
    wrong!(
        "a declined step clears the work area",
        "bench/calls.rs",
        "match stepped(record, &areas, seat, pick, dt) {"
            => "if SWITCH { areas.work.fill(0.0); } match stepped(record, &areas, seat, pick, dt) {",
    ),
    wrong!(
        "a declined step keeps an energy",
        "bench/calls.rs",
        "StepNumbers::default()"
            => "StepNumbers { energy: 1.0, ..StepNumbers::default() }",
    ),
    wrong!(
        "a declined dynamic step leaves the frames",
        "bench/calls.rs",
        "Some(dt) => update_dynamic(&mut rod, pick, dt)?,"
            => "Some(dt) => { let r = update_dynamic(&mut rod, pick, dt); if SWITCH && r.is_err() { return Ok((StepNumbers { refusal: r.unwrap_err(), ..StepNumbers::default() }, rod)); } r? }",
    ),
];
