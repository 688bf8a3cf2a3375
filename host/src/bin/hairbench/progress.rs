//! A line on the terminal while a run is long.

use std::io::{IsTerminal, Write};

pub struct Progress {
    shown: bool,
    on: bool,
}

impl Progress {
    /// Only a terminal is shown anything.
    pub fn new(quiet: bool) -> Progress {
        Progress { shown: false, on: !quiet && std::io::stderr().is_terminal() }
    }

    /// Shows every twentieth step.
    pub fn show(&mut self, line: usize, step: usize, steps: usize) {
        if self.on && step % 20 == 19 {
            self.shown = true;
            let _ = write!(std::io::stderr(), "\r\x1b[Kline {line}: step {} of at most {steps}", step + 1);
        }
    }

    pub fn clear(&mut self) {
        if std::mem::take(&mut self.shown) {
            let _ = write!(std::io::stderr(), "\r\x1b[K");
        }
    }
}
