//! The reference on a list of events, line by line.

use crate::coverage::Coverage;
use crate::format::{call_line, change_line, end_line};
use bench::given::{good_count, good_record, good_settings};
use bench::Reference;
use compare::Event;
use machine::{perform, Bench, Call, Lengths, Poke, Record, Request, SPARE, WORK};

pub struct Run {
    bench: Bench,
    work: Vec<f64>,
    /// The record as it was when it was good last.
    good: Record,
    pub lines: Vec<String>,
    pub coverage: Coverage,
}

impl Run {
    /// From the new bench.
    pub fn new() -> Run {
        Run {
            bench: Bench::new(),
            work: vec![0.0; WORK + SPARE],
            good: Record::default(),
            lines: vec![],
            coverage: Coverage::default(),
        }
    }

    pub fn event(&mut self, event: &Event) {
        match event {
            Event::Call(call) => self.call(call),
            Event::Poke(poke) => self.poke(*poke),
        }
        if good_record(&self.bench.record) {
            self.good = self.bench.record;
        }
    }

    fn call(&mut self, call: &Call) {
        let before = self.bench.clone();
        let answer = perform(&mut Reference, &mut self.bench, &mut self.work, call);
        self.coverage.note(call, &before, &answer);
        self.lines
            .push(call_line(call, &answer, &before, &self.bench));
    }

    fn poke(&mut self, poke: Poke) {
        let before = self.bench.clone();
        self.bench.poke(poke);
        self.lines.push(change_line(&before, &self.bench));
    }

    /// The events of one list: first the members whose seats it calls leave, and after it the record is
    /// made good again.
    pub fn list(&mut self, events: &[Event]) {
        for seat in 0..6 {
            let called = events
                .iter()
                .any(|e| matches!(e, Event::Call(c) if c.seat == seat));
            if called && self.bench.record.counts[seat] != 0 {
                self.event(&unload(seat));
            }
        }
        events.iter().for_each(|event| self.event(event));
        self.cure();
    }

    fn cure(&mut self) {
        for seat in 0..6 {
            let n = self.bench.record.counts[seat];
            if n != 0 && !good_count(n) {
                self.event(&Event::Poke(Poke::Count(seat, self.good.counts[seat])));
            }
            let taken = self.bench.record.counts[seat] != 0;
            let settings = self.bench.record.settings[seat];
            if taken && !good_settings(&settings) {
                for (i, x) in settings.numbers().into_iter().enumerate() {
                    if !x.is_finite() || x < 0.0 {
                        self.event(&Event::Poke(Poke::Setting(seat, i, 0.7)));
                    }
                }
            }
        }
    }

    pub fn text(&self) -> String {
        self.lines.concat() + &end_line(self.lines.len())
    }
}

fn unload(seat: usize) -> Event {
    Event::Call(Call {
        seat,
        lent: Lengths::default(),
        request: Request::Unload,
    })
}
