//! Runs a script on a bench. Pictures are made as their lines come, and handed back to be written at the end.

use crate::calls::{perform, Answer, Call, Made, Told};
use crate::output::Output;
use crate::page;
use crate::picture;
use crate::progress::Progress;
use crate::scene::{scene, scenes};
use crate::script::{Action, Fault, Laid, Statement, Who, STEPS_A_SECOND};
use crate::steps::Rounds;
use crate::table::{Row, Table};
use crate::timeline::{Stepped, Timeline};
use hairbench::{Bench, Component, Kind, Pick, Refusal, SEATS};

pub struct Run {
    pub bench: Bench,
    pub made: Vec<Made>,
    pub outputs: Vec<Output>,
    pub timeline: Timeline,
    pub held: [Option<Pick>; SEATS],
    pub progress: Progress,
    unit: String,
    table: Table,
}

impl Run {
    pub fn new(quiet: bool) -> Run {
        Run {
            bench: Bench::new(),
            made: vec![],
            outputs: vec![],
            timeline: Timeline::default(),
            held: [None; SEATS],
            unit: "units".to_string(),
            table: Table::new(quiet),
            progress: Progress::new(quiet),
        }
    }

    /// Runs the statements, up to the first that is refused.
    pub fn all(&mut self, statements: &[Statement]) -> Result<(), Fault> {
        for statement in statements {
            let outcome = self.one(statement);
            self.progress.clear();
            outcome.map_err(|refusal| Fault {
                line: statement.line,
                message: format!("refused with {}: {refusal}", refusal.number()),
            })?;
        }
        Ok(())
    }

    fn one(&mut self, statement: &Statement) -> Result<(), Refusal> {
        let line = statement.line;
        match &statement.action {
            Action::Unit(unit) => self.unit = unit.clone(),
            Action::Load { seat, laid } => self.load(line, *seat, laid)?,
            Action::Unload { seat } => self.unload(line, *seat)?,
            Action::Pin { seat, vertex, components, pinned } => self.pin(line, *seat, *vertex, components, *pinned)?,
            Action::Pick { seat, pick } => self.pick(line, *seat, *pick)?,
            Action::Drop { seat } => {
                let answer = if self.held[*seat].take().is_some() { "dropped" } else { "nothing held" };
                self.row(line, "drop", Some(*seat), answer.to_string(), None);
            }
            Action::Settle { who, steps, tolerance } => {
                let rounds = Rounds { statement, most: *steps, tolerance: *tolerance, call: &Call::Static };
                self.steps(*who, &rounds)?
            }
            Action::Move { who, steps } => {
                let call = |pick| Call::Dynamic(pick, 1.0 / STEPS_A_SECOND as f64);
                self.steps(*who, &Rounds { statement, most: *steps, tolerance: 0.0, call: &call })?
            }
            Action::Look { seat, kind } => self.look(line, *seat, *kind)?,
            Action::Draw { file, who } => self.draw(line, file, *who)?,
            Action::Play { file, who } => self.play(line, file, *who)?,
        }
        Ok(())
    }

    fn load(&mut self, line: usize, seat: usize, laid: &Laid) -> Result<(), Refusal> {
        self.simple(line, "load", seat, Call::Load(laid.clone()))?;
        self.timeline.seating_tick(line);
        self.timeline.begin(&self.bench, seat);
        Ok(())
    }

    fn unload(&mut self, line: usize, seat: usize) -> Result<(), Refusal> {
        self.simple(line, "unload", seat, Call::Unload)?;
        self.held[seat] = None;
        self.timeline.seating_tick(line);
        self.timeline.end(seat);
        Ok(())
    }

    /// One call for each component, one row for all.
    fn pin(
        &mut self,
        line: usize,
        seat: usize,
        vertex: usize,
        components: &[Component],
        pinned: bool,
    ) -> Result<(), Refusal> {
        let what = match components {
            [one] => format!("{one:?}").to_lowercase(),
            [_, _, _] => "position".to_string(),
            _ => "all".to_string(),
        };
        let mut answer = Ok(Told::Nothing);
        for &component in components {
            answer = answer.and_then(|_| self.call(seat, Call::Pin { vertex, component, pinned }));
        }
        let name = format!("{} {vertex} {what}", if pinned { "pin" } else { "free" });
        self.row(line, &name, Some(seat), said(&answer), None);
        answer.map(|_| ())
    }

    fn look(&mut self, line: usize, seat: usize, kind: Kind) -> Result<(), Refusal> {
        if let Told::Numbers(numbers) = self.simple(line, "look", seat, Call::Look(kind))? {
            let points: Vec<_> = numbers.chunks_exact(3).map(|p| [p[0], p[1], p[2]]).collect();
            self.table.points(&points);
        }
        Ok(())
    }

    pub fn call(&mut self, seat: usize, call: Call) -> Answer {
        let answer = perform(&mut self.bench, seat, &call);
        self.made.push(Made { seat, call, answer: answer.clone() });
        answer
    }

    pub fn row(&mut self, line: usize, call: &str, seat: Option<usize>, answer: String, step: Option<Stepped>) {
        self.progress.clear();
        self.table.row(&Row { line, call, seat, answer, step });
    }

    /// A call that has a row of its own.
    fn simple(&mut self, line: usize, name: &str, seat: usize, call: Call) -> Answer {
        let answer = self.call(seat, call);
        self.row(line, name, Some(seat), said(&answer), None);
        answer
    }

    /// Holds a pick for the steps that follow. One that they would be refused for is refused here.
    fn pick(&mut self, line: usize, seat: usize, pick: Pick) -> Result<(), Refusal> {
        let refusal = match self.bench.count(seat) {
            0 => Some(Refusal::SeatState),
            n if pick.vertex >= n => Some(Refusal::Index),
            _ => None,
        };
        let answer = refusal.map_or("held".to_string(), |r| format!("refused, {}", r.number()));
        self.row(line, &format!("pick {}", pick.vertex), Some(seat), answer, None);
        refusal.map_or(Ok(()), Err)?;
        self.held[seat] = Some(pick);
        Ok(())
    }

    fn draw(&mut self, line: usize, file: &str, who: Who) -> Result<(), Refusal> {
        let text = match who {
            Who::Seat(seat) => {
                let scene = scene(&self.bench, &self.timeline, seat, self.held[seat]).ok_or(Refusal::SeatState)?;
                picture::single(&scene, &self.unit)
            }
            Who::All => picture::grid(&scenes(&self.bench, &self.timeline, &self.held), &self.unit),
        };
        self.collect(line, "draw", file, who, text);
        Ok(())
    }

    fn play(&mut self, line: usize, file: &str, who: Who) -> Result<(), Refusal> {
        let text = match who {
            Who::Seat(seat) => page::single(&self.timeline, seat, &self.unit).ok_or(Refusal::SeatState)?,
            Who::All => page::grid(&self.timeline, &self.unit),
        };
        self.collect(line, "play", file, who, text);
        Ok(())
    }

    fn collect(&mut self, line: usize, call: &str, file: &str, who: Who, text: String) {
        let seat = match who {
            Who::Seat(seat) => Some(seat),
            Who::All => None,
        };
        self.row(line, call, seat, format!("kept for {file}"), None);
        self.outputs.push(Output { name: file.to_string(), text });
    }
}

pub fn said(answer: &Answer) -> String {
    match answer {
        Ok(Told::Numbers(numbers)) => format!("{} numbers", numbers.len()),
        Ok(_) => "accepted".to_string(),
        Err(refusal) => format!("refused, {}", refusal.number()),
    }
}
