//! What the calls of a run meet, by the names of `wanted`.

use crate::wanted::wanted;
use bench::calls::companion;
use bench::given::good_record;
use machine::{Answer, Bench, Call, Lengths, Looked, Pick, Request, Settings, StepNumbers};
use std::collections::BTreeMap;

#[derive(Default)]
pub struct Coverage {
    pub calls: usize,
    /// Strands that were laid, those of them that are curved, and those with no power of two among
    /// their stiffnesses.
    pub strands: usize,
    pub curved: usize,
    pub uneven: usize,
    pub met: BTreeMap<String, usize>,
    left: [bool; 6],
}

impl Coverage {
    /// What is wanted and was not met.
    pub fn missing(&self) -> Vec<String> {
        let is_missing = |name: &String| !self.met.contains_key(name);
        let mut missing: Vec<String> = wanted().into_iter().filter(is_missing).collect();
        if 2 * self.curved < self.strands {
            missing.push("half of the strands curved, of 3 vertices or more".to_string());
        }
        if 2 * self.uneven < self.strands {
            missing.push("half of the strands without a power of two".to_string());
        }
        missing
    }

    pub fn note(&mut self, call: &Call, before: &Bench, answer: &Answer) {
        self.calls += 1;
        let kind = kind(&call.request);
        let refusal = refusal(call, before, answer);
        match refusal {
            0 => self.meet(format!("{kind} accepted")),
            k => self.meet(format!("{kind} refused with {k}")),
        }
        match refusal {
            0 => self.note_accepted(call, before, answer),
            1 => self.note_lent(kind, call, before),
            _ => {}
        }
        if matches!(call.request, Request::Dynamic(_, dt) if is_minus_zero(dt)) && refusal == 6 {
            self.meet("dynamic step refused a time of -0".to_string());
        }
    }

    fn meet(&mut self, name: String) {
        *self.met.entry(name).or_default() += 1;
    }

    /// Why a call was refused with 1.
    fn note_lent(&mut self, kind: &str, call: &Call, before: &Bench) {
        if !good_record(&before.record) {
            return self.meet(format!("{kind} with a bad record"));
        }
        let right = Lengths::default();
        let lengths = [
            ("rest", call.lent.rest, right.rest),
            ("drape", call.lent.drape, right.drape),
            ("pins", call.lent.pins, right.pins),
            ("work", call.lent.work, right.work),
        ];
        for (area, length, right) in lengths {
            if length != right {
                let how = if length < right { "short" } else { "long" };
                self.meet(format!("{kind} with a {how} {area}"));
            }
        }
    }

    fn note_accepted(&mut self, call: &Call, before: &Bench, answer: &Answer) {
        let seat = call.seat;
        match &call.request {
            Request::Load {
                settings,
                positions,
                ..
            } => self.note_load(seat, settings, positions),
            Request::Unload => self.left[seat] = true,
            Request::Static(pick) | Request::Dynamic(pick, _) => {
                let Answer::Step(numbers) = answer else {
                    unreachable!("a step answers its numbers")
                };
                self.note_step(kind(&call.request), seat, before, pick, numbers);
            }
            _ => {}
        }
    }

    fn note_load(&mut self, seat: usize, settings: &Settings, positions: &[f64]) {
        self.strands += 1;
        self.curved += usize::from(is_curved(positions));
        self.uneven += usize::from(!stiffnesses(settings).iter().any(|&x| is_power(x)));
        if self.left[seat] {
            self.meet(format!("seat {seat} taken again"));
        }
        if positions.iter().any(|&x| is_minus_zero(x)) {
            self.meet("load of a position of -0".to_string());
        }
    }

    fn note_step(
        &mut self,
        step: &str,
        seat: usize,
        before: &Bench,
        pick: &Pick,
        numbers: &StepNumbers,
    ) {
        let n = before.record.counts[seat];
        let pins = &before.pins[128 * seat..][..4 * n];
        let mut what = vec![format!("of {n} vertices"), format!("on seat {seat}")];
        what.push(format!("after {} iterations", numbers.count));
        what.extend(pick_names(before, seat, pick));
        if pins.iter().any(|&byte| byte > 1) {
            what.push("with a pin other than 1".to_string());
        }
        if stiffnesses(&before.record.settings[seat])
            .iter()
            .any(|&x| is_minus_zero(x))
        {
            what.push("with a stiffness of -0".to_string());
        }
        for what in what {
            self.meet(format!("{step} {what}"));
        }
    }
}

fn pick_names(before: &Bench, seat: usize, pick: &Pick) -> Vec<String> {
    let Some((vertex, goal)) = pick else {
        return vec!["with no pick".to_string()];
    };
    let at = &before.drape[384 * seat + 3 * vertex..][..3];
    let way = (0..3).map(|i| (goal[i] - at[i]).abs()).fold(0.0, f64::max);
    let pins = &before.pins[128 * seat + 4 * vertex..][..3];
    let names = [
        (way < 0.3, "with a near pick"),
        (way > 10.0, "with a far pick"),
        (
            pins.iter().any(|&byte| byte != 0),
            "with a pick on a pinned vertex",
        ),
        (goal.iter().any(|&x| is_minus_zero(x)), "with a goal of -0"),
    ];
    let met = names.iter().filter(|(is_met, _)| *is_met);
    met.map(|(_, name)| name.to_string()).collect()
}

fn kind(request: &Request) -> &'static str {
    match request {
        Request::Load { .. } => "load",
        Request::Unload => "unload",
        Request::Pin { .. } => "pin",
        Request::Look(_) => "look",
        Request::Companion(_) => "companion",
        Request::Static(_) => "static step",
        Request::Dynamic(..) => "dynamic step",
    }
}

/// The number that a call is refused with, 0 for none; of a look its companion's.
fn refusal(call: &Call, before: &Bench, answer: &Answer) -> u8 {
    match call.request {
        Request::Look(kind) => {
            let areas = Looked {
                rest: &before.rest[..call.lent.rest],
                drape: &before.drape[..call.lent.drape],
            };
            companion(&before.record, areas, call.seat, kind)
        }
        _ => answer.refusal().expect("only a look does not tell"),
    }
}

fn stiffnesses(settings: &Settings) -> [f64; 4] {
    let [a, b, c, d, _] = settings.numbers();
    [a, b, c, d]
}

fn is_minus_zero(x: f64) -> bool {
    x.to_bits() == (-0.0f64).to_bits()
}

/// Whether x is 0 or a power of two.
fn is_power(x: f64) -> bool {
    x.to_bits() << 12 == 0
}

/// Whether some two edges of at least three vertices' are not parallel.
fn is_curved(positions: &[f64]) -> bool {
    let (points, _) = positions.as_chunks::<3>();
    points.windows(3).any(|p| {
        let a = [0, 1, 2].map(|i| p[1][i] - p[0][i]);
        let b = [0, 1, 2].map(|i| p[2][i] - p[1][i]);
        (0..3).any(|i| {
            let (j, k) = ((i + 1) % 3, (i + 2) % 3);
            (a[j] * b[k] - a[k] * b[j]).abs() > 1e-6
        })
    })
}
