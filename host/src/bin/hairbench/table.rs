//! The table of answers.

use crate::shapes::Point;
use crate::timeline::Stepped;
use std::io::Write;

/// A row; the step is the last of those that the line made on the seat.
pub struct Row<'a> {
    pub line: usize,
    pub call: &'a str,
    pub seat: Option<usize>,
    pub answer: String,
    pub step: Option<Stepped>,
}

pub const HEAD: &str =
    "line  call                    seat  answer             energy  iterations       ratio       moved";

/// A number in ten places.
pub fn scientific(x: f64) -> String {
    if x == 0.0 {
        return "0".to_string();
    }
    format!("{x:.4e}")
}

impl Row<'_> {
    pub fn text(&self) -> String {
        let seat = self.seat.map_or("all".to_string(), |s| s.to_string());
        let left = format!("{:>4}  {:<22}  {seat:>4}  {:<13}", self.line, self.call, self.answer);
        let Some(Stepped { report, moved }) = self.step else {
            return left.trim_end().to_string();
        };
        let (energy, ratio, moved) = (scientific(report.energy), scientific(report.ratio), scientific(moved));
        format!("{left}  {energy:>10}  {:>10}  {ratio:>10}  {moved:>10}", report.count)
    }
}

/// Prints rows, or nothing.
pub struct Table {
    quiet: bool,
    headed: bool,
}

impl Table {
    pub fn new(quiet: bool) -> Table {
        Table { quiet, headed: false }
    }

    pub fn row(&mut self, row: &Row) {
        if !std::mem::replace(&mut self.headed, true) {
            self.print(HEAD);
        }
        self.print(&row.text());
    }

    pub fn points(&mut self, points: &[Point]) {
        for (v, [x, y, z]) in points.iter().enumerate() {
            self.print(&format!("      vertex {v:>2}  {x:>24}  {y:>24}  {z:>24}"));
        }
    }

    fn print(&self, text: &str) {
        if !self.quiet {
            say(text);
        }
    }
}

/// Prints a line; a closed pipe is no reason to stop.
pub fn say(text: &str) {
    let _ = writeln!(std::io::stdout(), "{text}");
}

#[cfg(test)]
mod tests {
    use super::*;
    use hairbench::StepReport;

    #[test]
    fn columns_stand_under_their_heads() {
        let report = StepReport { energy: 0.125, count: 12, ratio: 1.0e-9 };
        let step = Some(Stepped { report, moved: 0.0 });
        let row = Row { line: 7, call: "settle, 12 steps", seat: Some(3), answer: "accepted".to_string(), step };
        let text = row.text();
        assert_eq!(text.len(), HEAD.len());
        for (head, cell) in [("energy", "1.2500e-1"), ("iterations", "12"), ("ratio", "1.0000e-9"), ("moved", "0")] {
            let end = HEAD.rfind(head).expect("a head") + head.len();
            assert!(text[..end].ends_with(cell), "{head}");
        }
        assert!(text.starts_with("   7  settle, 12 steps"));
    }
}
