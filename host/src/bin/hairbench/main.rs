//! Runs a script on the six-seat hair bench.

#![forbid(unsafe_code)]

mod calls;
#[cfg(test)]
mod checks;
mod json;
mod laying;
mod notes;
mod output;
mod pack;
mod page;
mod parse;
#[cfg(test)]
mod parse_tests;
mod picture;
mod progress;
mod run;
#[cfg(test)]
mod run_tests;
mod scene;
mod script;
mod shapes;
mod solo;
mod steps;
mod svg;
mod table;
mod timeline;
mod usage;
mod view;
mod words;

use std::fs;
use std::process::ExitCode;
use table::say;
use usage::{asked, Asked, Options, HELP};

fn main() -> ExitCode {
    match asked(std::env::args().skip(1)) {
        Err(wrong) => {
            eprintln!("hairbench: {wrong}; hairbench --help says more");
            ExitCode::from(2)
        }
        Ok(Asked::Help) => {
            say(HELP.trim_end());
            ExitCode::SUCCESS
        }
        Ok(Asked::Version) => {
            say(concat!("hairbench ", env!("CARGO_PKG_VERSION")));
            ExitCode::SUCCESS
        }
        Ok(Asked::Run(options)) => match whole(&options) {
            Ok(()) => ExitCode::SUCCESS,
            Err(lines) => {
                lines.iter().for_each(|line| eprintln!("{line}"));
                ExitCode::FAILURE
            }
        },
    }
}

/// Checks the script, runs it, compares the solo runs and writes the pictures; else what went wrong.
fn whole(options: &Options) -> Result<(), Vec<String>> {
    let name = options.script.display();
    let at = |fault: &script::Fault| format!("{name}:{}: {}", fault.line, fault.message);
    let text = fs::read_to_string(&options.script).map_err(|e| vec![format!("{name}: {e}")])?;
    let beside = |file: &str| {
        let path = options.script.parent().map_or(file.into(), |folder| folder.join(file));
        fs::read_to_string(path).map_err(|e| format!("{file}: {e}"))
    };
    let statements = parse::parse(&text, &beside).map_err(|faults| faults.iter().map(at).collect::<Vec<_>>())?;
    let mut run = run::Run::new(options.quiet);
    run.all(&statements).map_err(|fault| vec![at(&fault)])?;
    if options.solo {
        compared(&run)?;
    }
    let paths = output::write(&options.out, &run.outputs).map_err(|e| vec![e])?;
    if !options.quiet {
        paths.iter().for_each(|path| say(&format!("wrote {}", path.display())));
    }
    Ok(())
}

/// A line for each seat; an error where a solo run differs.
fn compared(run: &run::Run) -> Result<(), Vec<String>> {
    let verdicts = solo::compare(&run.made, &run.bench);
    verdicts.iter().for_each(|verdict| say(&solo::line(verdict)));
    match verdicts.iter().all(|verdict| verdict.difference.is_none()) {
        true => Ok(()),
        false => Err(vec!["hairbench: a seat's solo run differs".to_string()]),
    }
}
