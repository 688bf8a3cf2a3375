//! The steps of a `settle` or `move` line: rounds of one step on each seat.

use crate::calls::{Call, Told};
use crate::run::{said, Run};
use crate::script::{Statement, Who};
use crate::timeline::{taken, Stepped};
use hairbench::{Pick, Refusal, SEATS};

/// What a line asks of each seat: at most so many steps, and none after one that moves the strand by less than the tolerance.
pub struct Rounds<'a> {
    pub statement: &'a Statement,
    pub most: usize,
    pub tolerance: f64,
    pub call: &'a dyn Fn(Option<Pick>) -> Call,
}

impl Rounds<'_> {
    fn name(&self) -> &str {
        self.statement.text.split_whitespace().next().unwrap_or("")
    }
}

/// The steps that a seat made, and the last of them.
type Last = (usize, Option<Stepped>);

impl Run {
    pub fn steps(&mut self, who: Who, rounds: &Rounds) -> Result<(), Refusal> {
        let (line, name) = (rounds.statement.line, rounds.name());
        let seats = match who {
            Who::Seat(seat) => vec![seat],
            Who::All => taken(&self.bench),
        };
        if seats.is_empty() {
            self.row(line, name, None, "no strand".to_string(), None);
        }
        let last = self.rounds(&seats, rounds)?;
        for seat in seats {
            let (count, step) = last[seat];
            let plural = if count == 1 { "" } else { "s" };
            self.row(line, &format!("{name}, {count} step{plural}"), Some(seat), "accepted".to_string(), step);
        }
        Ok(())
    }

    fn rounds(&mut self, seats: &[usize], rounds: &Rounds) -> Result<[Last; SEATS], Refusal> {
        let mut last = [(0, None); SEATS];
        let mut going = seats.to_vec();
        let mut made = 0;
        while made < rounds.most && !going.is_empty() {
            self.progress.show(rounds.statement.line, made, rounds.most);
            made += 1;
            going = self.round(going, rounds, made, &mut last)?;
        }
        Ok(last)
    }

    /// A step on each seat; the seats that go on.
    fn round(
        &mut self,
        seats: Vec<usize>,
        rounds: &Rounds,
        made: usize,
        last: &mut [Last; SEATS],
    ) -> Result<Vec<usize>, Refusal> {
        self.timeline.step_tick(rounds.statement.line, &rounds.statement.text);
        let mut going = vec![];
        for seat in seats {
            let stepped = self.step(seat, rounds)?;
            last[seat] = (made, Some(stepped));
            if stepped.moved >= rounds.tolerance {
                going.push(seat);
            }
        }
        Ok(going)
    }

    fn step(&mut self, seat: usize, rounds: &Rounds) -> Result<Stepped, Refusal> {
        let pick = self.held[seat];
        match self.call(seat, (rounds.call)(pick)) {
            Ok(Told::Step(report)) => {
                let moved = self.timeline.note(&self.bench, seat, pick, report);
                Ok(Stepped { report, moved })
            }
            Ok(_) => unreachable!("a step is told as a step"),
            Err(refusal) => {
                self.row(rounds.statement.line, rounds.name(), Some(seat), said(&Err(refusal)), None);
                Err(refusal)
            }
        }
    }
}
