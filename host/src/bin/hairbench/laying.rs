//! The strand of a `load` line: straight, a curl, or positions from a file.

use crate::script::Laid;
use crate::shapes::{curl, straight, transported, Axis, Point};
use crate::words::{number, Words};
use hairbench::{Settings, VERTICES};

/// Reads a file that a script names.
pub type Reader<'a> = &'a dyn Fn(&str) -> Result<String, String>;

pub fn laid(words: &mut Words, reader: Reader) -> Result<Laid, String> {
    let mut frames = None;
    let points = match words.word("one of straight, curl, from")? {
        "straight" => {
            let (n, length) = size(words)?;
            straight(n, length, axis(words)?)
        }
        "curl" => {
            let (n, length) = size(words)?;
            let (radius, turns) = (words.number_key("radius", 0.5)?, words.number_key("turns", 3.0)?);
            curl(n, length, radius, turns, axis(words)?)?
        }
        "from" => {
            let points = points(words.word("a file")?, reader)?;
            frames = words.key("frames").map(|file| self::points(file, reader)).transpose()?;
            counted(points.len())?;
            points
        }
        word => return Err(format!("`{word}` is none of straight, curl, from")),
    };
    let frames = match frames {
        Some(frames) if frames.len() != points.len() => {
            return Err(format!("{} frames for {} vertices", frames.len(), points.len()))
        }
        Some(frames) => frames,
        None => transported(&points),
    };
    Ok(Laid { positions: points.concat(), frames: frames.concat(), settings: settings(words)? })
}

fn settings(words: &mut Words) -> Result<Settings, String> {
    Ok(Settings {
        stiff_length: words.number_key("stretch", 2.0)?,
        stiff_bendtwist: words.one_or_three_key("bend", 10.0)?,
        conv_ratio: words.number_key("ratio", 1.0e-8)?,
    })
}

fn size(words: &mut Words) -> Result<(usize, f64), String> {
    let n = words.whole_key("vertices", 16)?;
    let length = words.number_key("length", 12.0)?;
    if length <= 0.0 {
        return Err("length= is not above 0".to_string());
    }
    counted(n).map(|_| (n, length))
}

fn counted(n: usize) -> Result<(), String> {
    match n {
        2..=VERTICES => Ok(()),
        _ => Err(format!("{n} vertices: a strand has 2 to {VERTICES}")),
    }
}

fn axis(words: &mut Words) -> Result<Axis, String> {
    let origin = words.triple_key("origin", [0.0; 3])?;
    let direction = words.triple_key("direction", [0.0, -1.0, 0.0])?;
    Axis::new(origin, direction)
}

/// Three numbers a line; blank lines and what follows a `#` are left out.
fn points(file: &str, reader: Reader) -> Result<Vec<Point>, String> {
    let text = reader(file)?;
    let mut points = vec![];
    for (k, line) in text.lines().enumerate() {
        let line = line.split('#').next().unwrap_or("");
        let numbers: Vec<f64> = line
            .split_whitespace()
            .map(number)
            .collect::<Result<_, _>>()
            .map_err(|e| format!("{file}:{}: {e}", k + 1))?;
        match numbers.as_slice() {
            [] => (),
            &[x, y, z] => points.push([x, y, z]),
            _ => return Err(format!("{file}:{}: {} numbers, not three", k + 1, numbers.len())),
        }
    }
    Ok(points)
}
