//! Refusals 1 to 7 that need no step, in another order or with another edge.

use super::{wrong, Mutation};

pub const ALL: &[Mutation] = &[
    wrong!(
        "load: 2 before 1",
        "bench/calls.rs",
        "decline(1, !all_lent(areas) || !good_record(record))?;
    decline(2, seat > 5)?;
    decline(3, count(record, seat) != 0)?;"
            => "decline(2, seat > 5)?; decline(1, !all_lent(areas) || !good_record(record))?; decline(3, count(record, seat) != 0)?;",
    ),
    wrong!(
        "load: 3 before 1",
        "bench/calls.rs",
        "decline(1, !all_lent(areas) || !good_record(record))?;
    decline(2, seat > 5)?;
    decline(3, count(record, seat) != 0)?;"
            => "decline(3, count(record, seat) != 0)?; decline(1, !all_lent(areas) || !good_record(record))?; decline(2, seat > 5)?;",
    ),
    wrong!(
        "load: 4 before 3",
        "bench/calls.rs",
        "decline(1, !all_lent(areas) || !good_record(record))?;
    decline(2, seat > 5)?;
    decline(3, count(record, seat) != 0)?;"
            => "decline(1, !all_lent(areas) || !good_record(record))?; decline(2, seat > 5)?; decline(4, !good_count(load.n) || !lists_fit(load))?; decline(3, count(record, seat) != 0)?;",
    ),
    wrong!(
        "load: 6 before 4",
        "bench/calls.rs",
        "decline(4, !good_count(load.n) || !lists_fit(load))?;"
            => "decline(6, !given_finite(load) || !good_settings(&load.settings))?; decline(4, !good_count(load.n) || !lists_fit(load))?;",
    ),
    wrong!(
        "load: 7 before 6",
        "bench/calls.rs",
        "decline(6, !given_finite(load) || !good_settings(&load.settings))?;"
            => "decline(7, !edges_fit(load.positions))?; decline(6, !given_finite(load) || !good_settings(&load.settings))?;",
    ),
    wrong!(
        "load: frames not looked at under 6",
        "bench/calls.rs",
        "all_finite(load.positions) && all_finite(load.frames)"
            => "all_finite(load.positions)",
    ),
    wrong!(
        "load: the frame list may be longer",
        "bench/calls.rs",
        "load.frames.len() == 3 * load.n"
            => "load.frames.len() >= 3 * load.n",
        "rest[96..96 + 3 * load.n].copy_from_slice(load.frames);"
            => "rest[96..96 + 3 * load.n].copy_from_slice(&load.frames[..3 * load.n]);",
    ),
    wrong!(
        "load: declines each strand",
        "bench/calls.rs",
        "decline(7, !edges_fit(load.positions))"
            => "decline(7, true)",
    ),
    wrong!(
        "unload: 2 before 1",
        "bench/calls.rs",
        "decline(1, !all_lent(areas) || !good_record(record))?;
    decline(2, seat > 5)?;
    decline(3, count(record, seat) == 0)
"
            => "decline(2, seat > 5)?; decline(1, !all_lent(areas) || !good_record(record))?; decline(3, count(record, seat) == 0)
    ",
    ),
    wrong!(
        "unload: 3 before 2",
        "bench/calls.rs",
        "decline(1, !all_lent(areas) || !good_record(record))?;
    decline(2, seat > 5)?;
    decline(3, count(record, seat) == 0)
"
            => "decline(1, !all_lent(areas) || !good_record(record))?; decline(3, count(record, seat) == 0)?; decline(2, seat > 5)
    ",
    ),
    wrong!(
        "pin: 2 before 1",
        "bench/calls.rs",
        "decline(1, pins.len() != PINS || !good_record(record))?;"
            => "decline(2, seat > 5)?; decline(1, pins.len() != PINS || !good_record(record))?;",
    ),
    wrong!(
        "pin: 5 before 1",
        "bench/calls.rs",
        "decline(1, pins.len() != PINS || !good_record(record))?;"
            => "decline(5, component > 3)?; decline(1, pins.len() != PINS || !good_record(record))?;",
    ),
    wrong!(
        "pin: component 3 declined",
        "bench/calls.rs",
        "component > 3"
            => "component > 2",
    ),
    wrong!(
        "pin: vertex n taken",
        "bench/calls.rs",
        "vertex >= count(record, seat)"
            => "vertex > count(record, seat)",
    ),
    wrong!(
        "look: 2 before 1",
        "bench/calls.rs",
        "decline(1, !lent || !good_record(record))?;"
            => "decline(2, seat > 5)?; decline(1, !lent || !good_record(record))?;",
    ),
    wrong!(
        "look: 5 before 3",
        "bench/calls.rs",
        "decline(1, !lent || !good_record(record))?;"
            => "decline(1, !lent || !good_record(record))?; decline(5, kind > 4 && seat < 6)?;",
    ),
    wrong!(
        "look: the drape may be longer",
        "bench/calls.rs",
        "decline(1, !lent || !good_record(record))?;"
            => "decline(1, areas.rest.len() != REST || areas.drape.len() < DRAPE || !good_record(record))?;",
    ),
    wrong!(
        "step: 2 before 1",
        "bench/calls.rs",
        "decline(1, !step_lent(areas) || !good_record(record))?;"
            => "decline(2, seat > 5)?; decline(1, !step_lent(areas) || !good_record(record))?;",
    ),
    wrong!(
        "step: 3 before 2",
        "bench/calls.rs",
        "decline(1, !step_lent(areas) || !good_record(record))?;"
            => "decline(1, !step_lent(areas) || !good_record(record))?; decline(3, count(record, seat) == 0)?;",
    ),
    wrong!(
        "step: 5 before 3",
        "bench/calls.rs",
        "decline(1, !step_lent(areas) || !good_record(record))?;"
            => "decline(1, !step_lent(areas) || !good_record(record))?; decline(5, seat < 6 && pick.is_some_and(|(v, _)| v >= count(record, seat)))?;",
    ),
    wrong!(
        "step: 6 before 5",
        "bench/calls.rs",
        "decline(5, pick.is_some_and(|(v, _)| v >= count(record, seat)))?;"
            => "decline(6, !goal_finite(pick) || !dt.is_none_or(good_time))?; decline(5, pick.is_some_and(|(v, _)| v >= count(record, seat)))?;",
    ),
    wrong!(
        "step: 7 before 6",
        "bench/calls.rs",
        "decline(5, pick.is_some_and(|(v, _)| v >= count(record, seat)))?;"
            => "decline(5, pick.is_some_and(|(v, _)| v >= count(record, seat)))?; decline(7, dt.is_none() && !edges_fit(&areas.drape[drape_part(seat)][..3 * count(record, seat)]))?;",
    ),
    wrong!(
        "step: length of the work area not looked at",
        "bench/calls.rs",
        "areas.work.len() == WORK"
            => "true",
    ),
    wrong!(
        "step: dt of 0 taken",
        "bench/calls.rs",
        "dt > 0.0"
            => "dt >= 0.0",
    ),
    wrong!(
        "-0 is below 0",
        "bench/given.rs",
        "numbers.iter().any(|&x| x < 0.0)"
            => "numbers.iter().any(|&x| x.is_sign_negative())",
    ),
    wrong!(
        "settings of empty seats are looked at",
        "bench/given.rs",
        "n == 0 || good_count(n) && good_settings(settings)"
            => "(n == 0 || good_count(n)) && good_settings(settings)",
    ),
    wrong!(
        "record: settings not looked at",
        "bench/given.rs",
        "n == 0 || good_count(n) && good_settings(settings)"
            => "n == 0 || good_count(n)",
    ),
    wrong!(
        "1 vertex",
        "bench/given.rs",
        "(2..=32)"
            => "(3..=32)",
    ),
    wrong!(
        "an infinite length is taken",
        "bench/given.rs",
        "squared.is_finite() && squared > 0.0"
            => "squared > 0.0",
    ),
];
