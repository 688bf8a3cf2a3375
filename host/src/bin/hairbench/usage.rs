//! What the program says about itself, and its arguments.

use std::path::PathBuf;

pub const HELP: &str = "\
usage: hairbench SCRIPT [--out FOLDER] [--solo] [--quiet]
       hairbench --help | --version

Runs a script on the six-seat hair bench, prints the answers as a table and writes the pictures that it asks for.

  --out FOLDER  where pictures are written; made if it is not there (default: the current folder)
  --solo        then run each seat's calls again, alone on a fresh bench with garbage in its work area,
                and compare every answer and the final strand bit for bit
  --quiet       print no table and no progress
  --help        print this
  --version     print the version

A script has one statement a line; what follows a # is a comment. Seats are 0 to 5, vertices count from 0.

  unit WORD                          what lengths are called in pictures (default: units)
  load SEAT straight [KEY=VALUE..]   a straight strand: vertices=16 length=12 origin=0,0,0 direction=0,-1,0
  load SEAT curl [KEY=VALUE..]       a helix: as straight, and radius=0.5 turns=3; the length is along the curve
  load SEAT from FILE [KEY=VALUE..]  positions from a file, three numbers a line; frames=FILE for its frames
       every load also takes         stretch=2 bend=10 (or bend=A,B,C) ratio=1e-8
  unload SEAT
  pin SEAT VERTEX WHAT               WHAT: x, y, z, twist, position or all
  free SEAT VERTEX WHAT
  pick SEAT VERTEX X Y Z             pull the vertex to the place in the seat's steps from now on
  drop SEAT                          pull no more
  settle SEAT|all [steps=100] [tolerance=1e-6]
                                     static steps until none moves a vertex by the tolerance or more
  move SEAT|all seconds=T            dynamic steps, thirty a second
  look SEAT KIND                     KIND: positions, frames, velocities, rest-positions or rest-frames
  draw FILE.svg SEAT|all             a picture of rest and drape from front and side
  play FILE.html SEAT|all            a page that plays the steps so far

The whole script is checked before anything runs. When a line is refused nothing is written.
Exit status: 0 done; 1 refused, by the check, the bench or --solo, or not written; 2 wrong usage.
";

#[derive(Debug, PartialEq)]
pub struct Options {
    pub script: PathBuf,
    pub out: PathBuf,
    pub solo: bool,
    pub quiet: bool,
}

#[derive(Debug, PartialEq)]
pub enum Asked {
    Help,
    Version,
    Run(Options),
}

/// What the arguments ask for, or what is wrong with them.
pub fn asked(mut args: impl Iterator<Item = String>) -> Result<Asked, String> {
    let (mut script, mut out, mut solo, mut quiet) = (None, None, false, false);
    while let Some(arg) = args.next() {
        match arg.as_str() {
            "--help" => return Ok(Asked::Help),
            "--version" => return Ok(Asked::Version),
            "--solo" => solo = true,
            "--quiet" => quiet = true,
            "--out" => out = Some(PathBuf::from(args.next().ok_or("--out needs a folder")?)),
            other if other.starts_with("--") => return Err(format!("there is no {other}")),
            _ if script.is_some() => return Err("more than one script".to_string()),
            _ => script = Some(PathBuf::from(arg)),
        }
    }
    let script = script.ok_or("a script is missing")?;
    let out = out.unwrap_or_else(|| PathBuf::from("."));
    Ok(Asked::Run(Options { script, out, solo, quiet }))
}

#[cfg(test)]
mod tests {
    use super::*;

    fn of(args: &[&str]) -> Result<Asked, String> {
        asked(args.iter().map(|a| a.to_string()))
    }

    #[test]
    fn arguments_in_any_order() {
        let options = Options { script: "s".into(), out: "f".into(), solo: true, quiet: false };
        assert_eq!(of(&["--out", "f", "s", "--solo"]), Ok(Asked::Run(options)));
        assert_eq!(of(&["s", "--help"]), Ok(Asked::Help));
        assert_eq!(of(&["--version"]), Ok(Asked::Version));
    }

    #[test]
    fn wrong_arguments() {
        for args in [&[][..], &["a", "b"], &["a", "--out"], &["a", "--loud"], &["--solo"]] {
            assert!(of(args).is_err(), "{args:?}");
        }
    }
}
