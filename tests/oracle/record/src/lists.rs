//! The lists that are chosen from: those of `compare`, each with its seats turned on by some, and
//! stays of one strand.

use crate::stays::{lengths, stay};
use compare::crossings::crossings;
use compare::examples::examples;
use compare::lists::{list, TYPICAL, WILD};
use compare::Event;
use machine::Poke;

pub struct List {
    pub name: String,
    pub events: Vec<Event>,
}

/// How many seeds of each kind of random list are tried.
const SEEDS: u64 = 400;

/// The vertices of the stays: each number that is asked for, small ones most often.
const COUNTS: [usize; 16] = [3, 4, 5, 6, 8, 3, 7, 9, 12, 5, 16, 10, 4, 31, 2, 32];

pub fn lists() -> Vec<List> {
    let examples = examples()
        .into_iter()
        .map(|(name, e)| (name.to_string(), e));
    let random = |name: &'static str, taste| {
        (1..=SEEDS).map(move |seed| (format!("{name} {seed}"), list(seed, taste)))
    };
    let stays = (1..=SEEDS).map(|seed| {
        let n = COUNTS[seed as usize % COUNTS.len()];
        (format!("stay {seed} of {n}"), stay(seed, n))
    });
    let all = [("lengths".to_string(), lengths())]
        .into_iter()
        .chain(examples)
        .chain(crossings())
        .chain(stays)
        .chain(random("typical", TYPICAL))
        .chain(random("wild", WILD));
    all.enumerate()
        .map(|(turn, (name, events))| List {
            name,
            events: events.iter().map(|e| turned(e, turn)).collect(),
        })
        .collect()
}

fn turned(event: &Event, turn: usize) -> Event {
    let seat_of = |seat: usize| match seat < 6 {
        true => (seat + turn) % 6,
        false => seat,
    };
    let place_of = |place: usize, part: usize| part * seat_of(place / part) + place % part;
    match event {
        Event::Call(call) => {
            let mut call = call.clone();
            call.seat = seat_of(call.seat);
            Event::Call(call)
        }
        Event::Poke(poke) => Event::Poke(match *poke {
            Poke::Rest(i, x) => Poke::Rest(place_of(i, 192), x),
            Poke::Drape(i, x) => Poke::Drape(place_of(i, 384), x),
            Poke::Pins(i, byte) => Poke::Pins(place_of(i, 128), byte),
            Poke::Count(seat, n) => Poke::Count(seat_of(seat), n),
            Poke::Setting(seat, i, x) => Poke::Setting(seat_of(seat), i, x),
        }),
    }
}
