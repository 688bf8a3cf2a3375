//! What is pinned and picked on a strand, in words.

use crate::scene::Scene;
use crate::view::short;

/// The letters that fit on a line of a drawing.
const LETTERS: usize = 100;

pub fn notes(scene: &Scene, unit: &str) -> [String; 2] {
    let picked = scene.pick.map_or("Nothing is picked.".to_string(), |pick| {
        let [x, y, z] = pick.goal.map(short);
        format!("Picked: vertex {}, pulled to ({x}, {y}, {z}) {unit}.", pick.vertex)
    });
    [pinned(&scene.pins), picked].map(cut)
}

fn pinned(pins: &[[bool; 4]]) -> String {
    let mut groups: Vec<(String, Vec<usize>)> = vec![];
    for (vertex, held) in pins.iter().enumerate().filter(|(_, held)| held.contains(&true)) {
        let name = names(held);
        match groups.iter_mut().find(|g| g.0 == name) {
            Some(group) => group.1.push(vertex),
            None => groups.push((name, vec![vertex])),
        }
    }
    let said: Vec<String> = groups.iter().map(|(name, vertices)| format!("{name} of {}", ranges(vertices))).collect();
    match said.is_empty() {
        true => "Nothing is pinned.".to_string(),
        false => format!("Pinned: {}.", said.join("; ")),
    }
}

fn names(held: &[bool; 4]) -> String {
    match held {
        [true, true, true, true] => "position and twist".to_string(),
        [true, true, true, false] => "position".to_string(),
        some => {
            let names = ["x", "y", "z", "twist"].into_iter().zip(some).filter(|p| *p.1);
            names.map(|p| p.0).collect::<Vec<_>>().join(", ")
        }
    }
}

/// Vertices in rising order, neighbours joined, as in "vertices 0 to 3, 7".
fn ranges(vertices: &[usize]) -> String {
    let mut runs: Vec<[usize; 2]> = vec![];
    for &vertex in vertices {
        match runs.last_mut() {
            Some([_, last]) if *last + 1 == vertex => *last = vertex,
            _ => runs.push([vertex, vertex]),
        }
    }
    let run = |[first, last]: &[usize; 2]| match last - first {
        0 => format!("{first}"),
        _ => format!("{first} to {last}"),
    };
    let word = if vertices.len() == 1 { "vertex" } else { "vertices" };
    format!("{word} {}", runs.iter().map(run).collect::<Vec<_>>().join(", "))
}

/// The beginning of a text that is too long.
fn cut(text: String) -> String {
    match text.chars().count() {
        0..=LETTERS => text,
        _ => text.chars().take(LETTERS - 1).chain(['\u{2026}']).collect(),
    }
}

#[cfg(test)]
mod tests {
    use super::*;

    #[test]
    fn pins_in_words() {
        let (all, place, none) = ([true; 4], [true, true, true, false], [false; 4]);
        assert_eq!(pinned(&[none, none]), "Nothing is pinned.");
        let pins = [all, place, none, place, place, [false, true, false, true]];
        let said = "Pinned: position and twist of vertex 0; position of vertices 1, 3 to 4; y, twist of vertex 5.";
        assert_eq!(pinned(&pins), said);
    }

    #[test]
    fn long_texts_are_cut() {
        assert_eq!(cut("short".to_string()), "short");
        assert_eq!(cut("x".repeat(200)).chars().count(), LETTERS);
    }
}
