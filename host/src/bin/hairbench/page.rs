//! A page that plays what strands did, step by step. It needs nothing but itself.

use crate::json::{exact, list, object, rough, text};
use crate::pack::pack;
use crate::shapes::Point;
use crate::svg::escaped;
use crate::timeline::{Frame, Part, Stay, Timeline};
use crate::view::Bounds;
use hairbench::{Pick, SEATS};

const SHELL: &str = include_str!("page/page.html");
const STYLE: &str = include_str!("page/page.css");
const SCRIPTS: [&str; 3] =
    [include_str!("page/strands.js"), include_str!("page/plots.js"), include_str!("page/player.js")];

/// The present strand of a seat since its load. None where the seat is empty.
pub fn single(timeline: &Timeline, seat: usize, unit: &str) -> Option<String> {
    let sitting = timeline.sitting(seat)?;
    let (stay, parts) = closed_up(sitting, &timeline.parts);
    let ticks = stay.frames.len();
    Some(page(&format!("Seat {seat}, step by step"), unit, ticks, &parts, &[(seat, vec![&stay])]))
}

/// Every strand of every seat.
pub fn grid(timeline: &Timeline, unit: &str) -> String {
    let of = |seat| timeline.stays.iter().filter(|s| s.seat == seat).collect::<Vec<_>>();
    let seats: Vec<_> = (0..SEATS).map(|seat| (seat, of(seat))).collect();
    page("The six seats, step by step", unit, timeline.ticks, &timeline.parts, &seats)
}

/// The stay with a tick for each of its frames and none between, and the parts that these belong to.
fn closed_up(stay: &Stay, parts: &[Part]) -> (Stay, Vec<Part>) {
    let mut closed = stay.clone();
    let mut kept: Vec<Part> = vec![];
    for (k, frame) in closed.frames.iter_mut().enumerate() {
        let part = parts.iter().rev().find(|p| p.tick <= frame.tick);
        if let Some(part) = part.filter(|p| kept.last().is_none_or(|l| l.line != p.line)) {
            kept.push(Part { tick: k, ..part.clone() });
        }
        frame.tick = k;
    }
    (closed, kept)
}

fn page(title: &str, unit: &str, ticks: usize, parts: &[Part], seats: &[(usize, Vec<&Stay>)]) -> String {
    let part = |p: &Part| list([p.tick.to_string(), p.line.to_string(), text(&p.text)]);
    let data = object(&[
        ("unit", text(unit)),
        ("ticks", ticks.to_string()),
        ("parts", list(parts.iter().map(part))),
        ("seats", list(seats.iter().map(|(seat, stays)| seat_data(*seat, stays)))),
    ]);
    SHELL
        .replace("{{title}}", &escaped(title))
        .replace("{{style}}", STYLE)
        .replace("{{script}}", &SCRIPTS.concat())
        .replace("{{data}}", &data)
}

fn seat_data(seat: usize, stays: &[&Stay]) -> String {
    let room = room(stays).map_or("null".to_string(), |b| list(b.low.into_iter().chain(b.high).map(exact)));
    object(&[("seat", seat.to_string()), ("room", room), ("stays", list(stays.iter().map(|s| stay_data(s))))])
}

/// What a seat's panels show: strands at rest, last frames and goals, and all but the widest twentieth of the frames.
fn room(stays: &[&Stay]) -> Option<Bounds> {
    let frames = || stays.iter().flat_map(|s| &s.frames);
    let ends = stays.iter().flat_map(|s| s.frames.first().into_iter().chain(s.frames.last()));
    let goals = frames().filter_map(|f| f.pick.map(|p| p.goal));
    let always: Vec<Point> = ends.flat_map(|f| f.points.iter().copied()).chain(goals).collect();
    let mut wide: Vec<Bounds> = frames().filter_map(|f| Bounds::of(f.points.iter().copied())).collect();
    let size = |b: &Bounds| (0..3).map(|k| b.high[k] - b.low[k]).fold(0.0, f64::max);
    wide.sort_by(|a, b| size(a).total_cmp(&size(b)));
    wide.truncate(wide.len() * 19 / 20);
    Bounds::of(always.into_iter().chain(wide.into_iter().flat_map(|b| [b.low, b.high])))
}

fn stay_data(stay: &Stay) -> String {
    let frames = &stay.frames;
    let packed = pack(frames.iter().map(|f| &f.points[..]));
    let step = |f: fn(&crate::timeline::Stepped) -> String| {
        list(frames.iter().map(|x| x.step.as_ref().map_or("null".to_string(), f)))
    };
    object(&[
        ("n", frames[0].points.len().to_string()),
        ("end", stay.end.map_or("null".to_string(), |t| t.to_string())),
        ("ticks", runs(frames)),
        ("corner", list(packed.corner.map(exact))),
        ("part", exact(packed.part)),
        ("frames", text(&packed.text)),
        ("energy", step(|s| rough(s.report.energy))),
        ("count", step(|s| s.report.count.to_string())),
        ("moved", step(|s| rough(s.moved))),
        ("pins", changes(frames, |f| text(&pinned(f)))),
        ("picks", changes(frames, |f| f.pick.map_or("null".to_string(), picked))),
    ])
}

/// The frames' ticks as runs: first tick and length.
fn runs(frames: &[Frame]) -> String {
    let mut runs: Vec<[usize; 2]> = vec![];
    for frame in frames {
        match runs.last_mut() {
            Some([first, length]) if *first + *length == frame.tick => *length += 1,
            _ => runs.push([frame.tick, 1]),
        }
    }
    list(runs.into_iter().map(|r| list(r.map(|k| k.to_string()))))
}

/// What holds from a frame on: the frame's number and the value, where it changes.
fn changes(frames: &[Frame], value: impl Fn(&Frame) -> String) -> String {
    let mut last = String::new();
    let mut changes = vec![];
    for (k, frame) in frames.iter().enumerate() {
        let value = value(frame);
        if value != last {
            changes.push(list([k.to_string(), value.clone()]));
            last = value;
        }
    }
    list(changes)
}

/// A hexadecimal digit a vertex: bits 0 to 2 for the position, bit 3 for the twist.
fn pinned(frame: &Frame) -> String {
    let digit = |pins: &[bool; 4]| (0..4).map(|k| (pins[k] as u32) << k).sum::<u32>();
    frame.pins.iter().filter_map(|pins| char::from_digit(digit(pins), 16)).collect()
}

fn picked(pick: Pick) -> String {
    list(std::iter::once(pick.vertex.to_string()).chain(pick.goal.map(exact)))
}
