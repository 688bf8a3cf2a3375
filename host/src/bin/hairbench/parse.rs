//! Reads a script: every line is checked before any is run.

use crate::laying::{laid, Reader};
use crate::script::{Action, Fault, Statement, Who, STEPS_A_SECOND};
use crate::words::Words;
use hairbench::{Component, Kind, Pick};

/// The most steps that a line may ask for.
const MOST_STEPS: usize = 20_000;

/// The statements of a script, or what is wrong with its lines. Files are read through `reader`.
pub fn parse(text: &str, reader: Reader) -> Result<Vec<Statement>, Vec<Fault>> {
    let mut statements = vec![];
    let mut faults = vec![];
    for (k, whole) in text.lines().enumerate() {
        let line = k + 1;
        let text = whole.split('#').next().unwrap_or("").trim();
        if text.is_empty() {
            continue;
        }
        match action(text, reader).and_then(|action| fresh(&statements, action)) {
            Ok(action) => statements.push(Statement { line, text: text.to_string(), action }),
            Err(message) => faults.push(Fault { line, message }),
        }
    }
    if faults.is_empty() {
        Ok(statements)
    } else {
        Err(faults)
    }
}

/// A file is written once.
fn fresh(before: &[Statement], action: Action) -> Result<Action, String> {
    let file_of = |action: &Action| match action {
        Action::Draw { file, .. } | Action::Play { file, .. } => Some(file.clone()),
        _ => None,
    };
    let file = file_of(&action);
    match before.iter().find(|s| file.is_some() && file_of(&s.action) == file) {
        Some(earlier) => Err(format!("line {} writes this file already", earlier.line)),
        None => Ok(action),
    }
}

fn action(text: &str, reader: Reader) -> Result<Action, String> {
    let mut words = Words::new(text)?;
    let action = match words.word("a statement")? {
        "unit" => Action::Unit(unit(words.word("a unit")?)?),
        "load" => Action::Load { seat: words.seat()?, laid: laid(&mut words, reader)? },
        "unload" => Action::Unload { seat: words.seat()? },
        "pin" => pin(&mut words, true)?,
        "free" => pin(&mut words, false)?,
        "pick" => pick(&mut words)?,
        "drop" => Action::Drop { seat: words.seat()? },
        "settle" => settle(&mut words)?,
        "move" => moved(&mut words)?,
        "look" => Action::Look { seat: words.seat()?, kind: kind(words.word("a kind")?)? },
        "draw" => {
            let (file, who) = written(&mut words, ".svg")?;
            Action::Draw { file, who }
        }
        "play" => {
            let (file, who) = written(&mut words, ".html")?;
            Action::Play { file, who }
        }
        word => return Err(format!("`{word}` is no statement")),
    };
    words.end()?;
    Ok(action)
}

fn unit(word: &str) -> Result<String, String> {
    match word.chars().count() {
        0..=12 => Ok(word.to_string()),
        _ => Err(format!("`{word}` is longer than 12 letters")),
    }
}

fn pin(words: &mut Words, pinned: bool) -> Result<Action, String> {
    let (seat, vertex) = (words.seat()?, words.whole("a vertex")?);
    let [x, y, z, twist] = Component::ALL;
    let components = match words.word("what to hold")? {
        "x" => vec![x],
        "y" => vec![y],
        "z" => vec![z],
        "twist" => vec![twist],
        "position" => vec![x, y, z],
        "all" => vec![x, y, z, twist],
        word => return Err(format!("`{word}` is none of x, y, z, twist, position, all")),
    };
    Ok(Action::Pin { seat, vertex, components, pinned })
}

fn pick(words: &mut Words) -> Result<Action, String> {
    let (seat, vertex) = (words.seat()?, words.whole("a vertex")?);
    let goal = [words.number("x of the goal")?, words.number("y of the goal")?, words.number("z of the goal")?];
    Ok(Action::Pick { seat, pick: Pick { vertex, goal } })
}

fn settle(words: &mut Words) -> Result<Action, String> {
    let who = words.who()?;
    let steps = some_steps(words.whole_key("steps", 100)?)?;
    let tolerance = words.number_key("tolerance", 1.0e-6)?;
    if tolerance < 0.0 {
        return Err("tolerance= is below 0".to_string());
    }
    Ok(Action::Settle { who, steps, tolerance })
}

fn moved(words: &mut Words) -> Result<Action, String> {
    let who = words.who()?;
    let seconds = words.number_key("seconds", -1.0)?;
    if seconds <= 0.0 {
        return Err("seconds= is missing or not above 0".to_string());
    }
    let steps = some_steps((seconds * STEPS_A_SECOND as f64).round() as usize)?;
    Ok(Action::Move { who, steps })
}

fn some_steps(steps: usize) -> Result<usize, String> {
    match steps {
        0 => Err("not even one step is asked for".to_string()),
        steps if steps > MOST_STEPS => Err(format!("{steps} steps are too many: at most {MOST_STEPS}")),
        steps => Ok(steps),
    }
}

fn kind(word: &str) -> Result<Kind, String> {
    match word {
        "rest-positions" => Ok(Kind::RestPositions),
        "rest-frames" => Ok(Kind::RestFrames),
        "positions" => Ok(Kind::DrapePositions),
        "frames" => Ok(Kind::DrapeFrames),
        "velocities" => Ok(Kind::Velocities),
        _ => Err(format!("`{word}` is none of rest-positions, rest-frames, positions, frames, velocities")),
    }
}

/// The name of a file to write, which stands in the output folder itself, and whom it shows.
fn written(words: &mut Words, ending: &str) -> Result<(String, Who), String> {
    let file = words.word("a file")?;
    let named = file.strip_suffix(ending).is_some_and(|stem| !stem.is_empty());
    if !named || file.contains(['/', '\\']) || file.starts_with('.') {
        return Err(format!("`{file}` is not a plain file name that ends in {ending}"));
    }
    Ok((file.to_string(), words.who()?))
}
