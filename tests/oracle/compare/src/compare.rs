//! The comparison of two benches on one list.

use crate::numbers::garbage;
use crate::rng::Rng;
use crate::{Event, Maker};
use machine::{perform, same_all, Answer, Bench, Call, Request, SPARE, WORK};

/// Where two benches part.
#[derive(Debug)]
pub struct Difference {
    pub event: usize,
    pub what: String,
}

/// What was met, so that a reader can judge what the lists cover.
#[derive(Clone, Copy, Default, Debug)]
pub struct Tally {
    pub calls: usize,
    /// Accepted steps without and with an iteration, and all their iterations.
    pub still: usize,
    pub moved: usize,
    pub iterations: usize,
    /// Accepted steps that ran to the limit.
    pub limit: usize,
    /// How often each number was answered, by steps and by other calls.
    pub steps: [usize; 12],
    pub others: [usize; 12],
}

impl Tally {
    fn note(&mut self, answer: &Answer) {
        self.calls += 1;
        match answer {
            Answer::Number(k) => self.others[*k as usize] += 1,
            Answer::Shown(_) => {}
            Answer::Step(numbers) => {
                self.steps[numbers.refusal as usize] += 1;
                self.still += usize::from(numbers.refusal == 0 && numbers.count == 0);
                self.moved += usize::from(numbers.count > 0);
                self.limit += usize::from(numbers.count == 1000);
                self.iterations += numbers.count;
            }
        }
    }
}

/// Runs the list on both benches, from the new one, and compares answers, record and areas after each
/// event. The tested bench's work area is filled with garbage before about half of its calls.
pub fn compare(
    reference: Maker,
    tested: Maker,
    events: &[Event],
    seed: u64,
    tally: &mut Tally,
) -> Result<(), Difference> {
    let mut rng = Rng::new(seed);
    let (mut a, mut b) = (reference(), tested());
    let (mut bench_a, mut bench_b) = (Bench::new(), Bench::new());
    let mut work_a = vec![0.0; WORK + SPARE];
    let mut work_b = work_a.clone();
    for (place, event) in events.iter().enumerate() {
        let differ = |what| Difference { event: place, what };
        match event {
            Event::Poke(poke) => {
                bench_a.poke(*poke);
                bench_b.poke(*poke);
            }
            Event::Call(call) => {
                if rng.chance(0.5) {
                    garbage(&mut rng, &mut work_b);
                }
                let before = (bench_b.clone(), work_b.clone());
                let expected = perform(&mut *a, &mut bench_a, &mut work_a, call);
                let answer = perform(&mut *b, &mut bench_b, &mut work_b, call);
                tally.note(&expected);
                if !expected.same(&answer) {
                    return Err(differ(format!("{expected:?} {answer:?}")));
                }
                leaves(call, &answer, &before, &bench_b, &work_b).map_err(differ)?;
            }
        }
        if let Some(what) = bench_a.difference(&bench_b) {
            return Err(differ(what));
        }
    }
    Ok(())
}

/// A declined call changes nothing, 1 to 6 leave the work area too, and nobody writes past what was
/// lent.
fn leaves(
    call: &Call,
    answer: &Answer,
    (bench, work): &(Bench, Vec<f64>),
    bench_after: &Bench,
    work_after: &[f64],
) -> Result<(), String> {
    let refusal = answer.refusal().unwrap_or(0);
    if refusal != 0 {
        if let Some(what) = bench.difference(bench_after) {
            return Err(format!("refused with {refusal}, but {what}"));
        }
    }
    let stepped = matches!(call.request, Request::Static(_) | Request::Dynamic(..));
    let free = match stepped && !(1..=6).contains(&refusal) {
        true => call.lent.work,
        false => 0,
    };
    match same_all(&work[free..], &work_after[free..]) {
        true => Ok(()),
        false => Err("the work area".to_string()),
    }
}
