//! The names of what the calls of a list are to meet.

const KINDS: [&str; 7] = [
    "load",
    "unload",
    "pin",
    "look",
    "companion",
    "static step",
    "dynamic step",
];

const STEPS: [&str; 2] = ["static step", "dynamic step"];

/// The numbers of vertices that both kinds of step are to be made with.
const COUNTS: [usize; 8] = [2, 3, 4, 5, 8, 16, 31, 32];

/// The numbers that a call of this kind can be refused with.
fn refusals(kind: &str) -> &'static [u8] {
    match kind {
        "load" => &[1, 2, 3, 4, 6, 7],
        "unload" => &[1, 2, 3],
        "pin" | "look" | "companion" => &[1, 2, 3, 5],
        _ => &[1, 2, 3, 5, 6, 7, 8, 9, 10, 11],
    }
}

/// The areas that it is lent.
fn areas(kind: &str) -> &'static [&'static str] {
    match kind {
        "load" | "unload" => &["rest", "drape", "pins"],
        "pin" => &["pins"],
        "look" | "companion" => &["rest", "drape"],
        _ => &["rest", "drape", "pins", "work"],
    }
}

pub fn wanted() -> Vec<String> {
    let mut names = vec![];
    for kind in KINDS {
        names.push(format!("{kind} accepted"));
        names.push(format!("{kind} with a bad record"));
        names.extend(
            refusals(kind)
                .iter()
                .map(|k| format!("{kind} refused with {k}")),
        );
        for area in areas(kind) {
            names.extend(["short", "long"].map(|length| format!("{kind} with a {length} {area}")));
        }
    }
    for step in STEPS {
        names.extend(COUNTS.map(|n| format!("{step} of {n} vertices")));
        let what = [
            "with no pick",
            "with a near pick",
            "with a far pick",
            "with a pick on a pinned vertex",
            "with a pin other than 1",
            "after 0 iterations",
            "after 1000 iterations",
            "with a stiffness of -0",
            "with a goal of -0",
        ];
        names.extend(what.map(|what| format!("{step} {what}")));
    }
    for seat in 0..6 {
        names.extend(STEPS.map(|step| format!("{step} on seat {seat}")));
        names.push(format!("seat {seat} taken again"));
    }
    names.push("dynamic step refused a time of -0".to_string());
    names.push("load of a position of -0".to_string());
    names
}
