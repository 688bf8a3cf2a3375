//! A line of the stored list: crates/replay/README.md says what its words are.

use machine::{Answer, Bench, Call, Pick, Request, Shown};

/// The numbers of the areas.
const REST: u64 = 2;
const DRAPE: u64 = 3;

/// The line of a call, with its answer and what it changed.
pub fn call_line(call: &Call, answer: &Answer, before: &Bench, after: &Bench) -> String {
    let lent = &call.lent;
    let mut words = vec![kind(&call.request)];
    words.extend([lent.rest, lent.drape, lent.pins, lent.work, call.seat].map(|n| n as u64));
    put_arguments(&mut words, &call.request);
    put_answer(&mut words, answer);
    put_changes(&mut words, before, after);
    line(&words)
}

/// The line of a change by another hand.
pub fn change_line(before: &Bench, after: &Bench) -> String {
    let mut words = vec![8];
    put_changes(&mut words, before, after);
    line(&words)
}

/// The last line: how many came before.
pub fn end_line(lines: usize) -> String {
    line(&[0, lines as u64])
}

fn line(words: &[u64]) -> String {
    let words: Vec<String> = words.iter().map(|word| format!("{word:x}")).collect();
    words.join(" ") + "\n"
}

fn kind(request: &Request) -> u64 {
    match request {
        Request::Load { .. } => 1,
        Request::Unload => 2,
        Request::Pin { .. } => 3,
        Request::Look(_) => 4,
        Request::Companion(_) => 5,
        Request::Static(_) => 6,
        Request::Dynamic(..) => 7,
    }
}

fn bits(numbers: &[f64]) -> impl Iterator<Item = u64> + '_ {
    numbers.iter().map(|x| x.to_bits())
}

fn put_list(words: &mut Vec<u64>, numbers: &[f64]) {
    words.push(numbers.len() as u64);
    words.extend(bits(numbers));
}

fn put_arguments(words: &mut Vec<u64>, request: &Request) {
    match request {
        Request::Load {
            n,
            settings,
            positions,
            frames,
        } => {
            words.push(*n as u64);
            words.extend(bits(&settings.numbers()));
            put_list(words, positions);
            put_list(words, frames);
        }
        Request::Unload => {}
        Request::Pin {
            vertex,
            component,
            byte,
        } => words.extend([*vertex as u64, *component as u64, u64::from(*byte)]),
        Request::Look(kind) | Request::Companion(kind) => words.push(*kind as u64),
        Request::Static(pick) => put_pick(words, pick),
        Request::Dynamic(pick, dt) => {
            put_pick(words, pick);
            words.push(dt.to_bits());
        }
    }
}

fn put_pick(words: &mut Vec<u64>, pick: &Pick) {
    match pick {
        None => words.push(0),
        Some((vertex, goal)) => {
            words.extend([1, *vertex as u64]);
            words.extend(bits(goal));
        }
    }
}

fn put_answer(words: &mut Vec<u64>, answer: &Answer) {
    match answer {
        Answer::Number(k) => words.push(u64::from(*k)),
        Answer::Shown(shown) => put_shown(words, shown),
        Answer::Step(numbers) => words.extend([
            u64::from(numbers.refusal),
            numbers.energy.to_bits(),
            numbers.count as u64,
            numbers.ratio.to_bits(),
        ]),
    }
}

/// Area and place, zeros where there are no numbers, and the numbers.
fn put_shown(words: &mut Vec<u64>, shown: &Shown) {
    let place = match shown.place {
        Some((true, place)) => [REST, place as u64],
        Some((false, place)) => [DRAPE, place as u64],
        None => [0, 0],
    };
    words.extend(place);
    put_list(words, &shown.numbers);
}

/// Record and areas as words: counts, settings, rest, drape, pins.
fn areas(bench: &Bench) -> [Vec<u64>; 5] {
    let settings = bench.record.settings.map(|s| s.numbers());
    [
        bench.record.counts.iter().map(|&n| n as u64).collect(),
        bits(settings.as_flattened()).collect(),
        bits(&bench.rest).collect(),
        bits(&bench.drape).collect(),
        bench.pins.iter().map(|&byte| u64::from(byte)).collect(),
    ]
}

fn put_changes(words: &mut Vec<u64>, before: &Bench, after: &Bench) {
    let mut runs = 0;
    let mut changes = vec![];
    for (area, (old, new)) in areas(before).iter().zip(areas(after)).enumerate() {
        let mut i = 0;
        while i < new.len() {
            let n = (i..new.len()).take_while(|&i| old[i] != new[i]).count();
            if n > 0 {
                runs += 1;
                changes.extend([area as u64, i as u64, n as u64]);
                changes.extend(&new[i..i + n]);
            }
            i += n + 1;
        }
    }
    words.push(runs);
    words.extend(changes);
}
