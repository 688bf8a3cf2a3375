//! Other steps.

use super::{wrong, Mutation};

pub const ALL: &[Mutation] = &[
    wrong!(
        "inertia before the pick",
        "bench/step.rs",
        "if let Some(pick) = pick {
        add_pick(rod, &copy, pick);
    }
    add_inertia(rod, dt);"
            => "add_inertia(rod, dt); if let Some(pick) = pick { add_pick(rod, &copy, pick); }",
    ),
    wrong!(
        "a dynamic pick against the drape",
        "bench/step.rs",
        "if let Some(pick) = pick {
        add_pick(rod, &copy, pick);
    }
    add_inertia(rod, dt);"
            => "if let Some(pick) = pick { add_pick(rod, &rod.vtx2xyz_def.clone(), pick); } add_inertia(rod, dt);",
    ),
    wrong!(
        "no inertia",
        "bench/step.rs",
        "if let Some(pick) = pick {
        add_pick(rod, &copy, pick);
    }
    add_inertia(rod, dt);"
            => "if let Some(pick) = pick { add_pick(rod, &copy, pick); }",
    ),
    wrong!(
        "predicted by one rounding",
        "bench/step.rs",
        "rod.vtx2xyz_def[i] + dt * rod.vtx2velo[i]"
            => "dt.mul_add(rod.vtx2velo[i], rod.vtx2xyz_def[i])",
    ),
    wrong!(
        "pinned working copy from the drape",
        "bench/step.rs",
        "rod.vtx2xyz_tmp.clone()"
            => "rod.vtx2xyz_def.clone()",
    ),
    wrong!(
        "velocity by 1/dt",
        "bench/step.rs",
        "(copy[i] - rod.vtx2xyz_def[i]) / dt"
            => "(copy[i] - rod.vtx2xyz_def[i]) * (1.0 / dt)",
    ),
    wrong!(
        "pinned velocity set to 0",
        "bench/step.rs",
        "rod.vtx2xyz_tmp = copy;"
            => "{ for i in 0..copy.len() { if rod.vtx2isfix[i / 3][i % 3] != 0 { rod.vtx2velo[i] = 0.0; } } rod.vtx2xyz_tmp = copy; }",
    ),
    wrong!(
        "working copy not stored",
        "bench/step.rs",
        "rod.vtx2xyz_tmp = copy;"
            => "",
    ),
    wrong!(
        "frames of pinned twists left in a dynamic step",
        "bench/step.rs",
        "orthonormalize_framex_for_hair(&mut rod.vtx2framex_def, &copy);"
            => "ROOT::instead::orthonormalize_unpinned(rod, &copy);",
    ),
    wrong!(
        "a static step writes the working copy",
        "bench/step.rs",
        "rod.vtx2xyz_def = positions;"
            => "{ rod.vtx2xyz_tmp = positions.clone(); rod.vtx2xyz_def = positions; }",
    ),
    wrong!(
        "a static step stops the strand",
        "bench/step.rs",
        "rod.vtx2xyz_def = positions;"
            => "{ rod.vtx2velo.fill(0.0); rod.vtx2xyz_def = positions; }",
    ),
    wrong!(
        "a static step moves nothing",
        "bench/step.rs",
        "rod.vtx2xyz_def = positions;"
            => "",
    ),
    wrong!(
        "idles after the seat's first step",
        "bench/calls.rs",
        "step_refusal(record, areas, seat, pick, dt)?;"
            => "step_refusal(record, areas, seat, pick, dt)?; if ROOT::instead::again(seat) { return Ok((StepNumbers::default(), rod(record, areas, seat))); }",
    ),
    wrong!(
        "nothing moves without an iteration",
        "bench/step.rs",
        "update_solution_hair(&mut positions, &mut rod.vtx2framex_def, &u, &rod.vtx2isfix);"
            => "if numbers.count > 0 { update_solution_hair(&mut positions, &mut rod.vtx2framex_def, &u, &rod.vtx2isfix); }",
    ),
    wrong!(
        "a static pick against the working copy",
        "bench/step.rs",
        "add_pick(rod, &positions, pick);"
            => "add_pick(rod, &rod.vtx2xyz_tmp.clone(), pick);",
    ),
    wrong!(
        "one fixed energy",
        "bench/step.rs",
        "solved(rod, rod.conv_ratio, LIMIT)"
            => "{ rod.w = 0.0; solved(rod, rod.conv_ratio, LIMIT) }",
    ),
    wrong!(
        "an invented count",
        "bench/step.rs",
        "history.len()"
            => "history.len().max(1)",
    ),
    wrong!(
        "the first ratio",
        "bench/step.rs",
        "history.last()"
            => "history.first()",
    ),
];
