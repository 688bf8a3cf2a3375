//! Who writes a random list, call by call.

use crate::lists::Taste;
use crate::numbers::any;
use crate::rng::Rng;
use crate::shapes::Shape;
use crate::Event;
use machine::{Call, Poke, Request};

/// Knows what was given to each seat, not whether it was taken.
pub struct Author {
    pub rng: Rng,
    pub taste: Taste,
    /// The seats that most calls name.
    seats: Vec<usize>,
    pub known: [Option<Shape>; 6],
    /// What makes the record good again.
    cures: Vec<Poke>,
}

impl Author {
    /// The seats are those that most calls name.
    pub fn new(rng: Rng, taste: Taste, seats: Vec<usize>) -> Author {
        Author {
            rng,
            taste,
            seats,
            known: Default::default(),
            cures: vec![],
        }
    }

    pub fn events(&mut self) -> Vec<Event> {
        let mut events = vec![];
        if self.rng.chance(0.6) {
            events.extend(self.cures.drain(..).map(Event::Poke));
        }
        if self.rng.chance(self.taste.poke) {
            events.push(Event::Poke(self.poke()));
        }
        events.push(Event::Call(self.call()));
        events
    }

    pub fn wild(&mut self) -> bool {
        self.rng.chance(self.taste.wild)
    }

    fn seat(&mut self) -> usize {
        match self.rng.below(40) {
            0 => self.rng.one_of(&[6, 7, usize::MAX]),
            1 => self.rng.below(6),
            _ => self.rng.one_of(&self.seats),
        }
    }

    /// The vertices that the seat was given last.
    pub fn vertices(&self, seat: usize) -> usize {
        let known = self.known.get(seat).and_then(|k| k.as_ref());
        known.map_or(2, |shape| shape.positions.len() / 3)
    }

    fn call(&mut self) -> Call {
        let seat = self.seat();
        let empty = seat < 6 && self.known[seat].is_none();
        let request = match self.rng.below(100) {
            _ if empty && self.rng.chance(0.9) => self.load(seat),
            0..5 => self.load(seat),
            5..8 => self.unload(seat),
            8..28 => self.pin(seat),
            28..34 => Request::Look(self.kind()),
            34..38 => Request::Companion(self.kind()),
            38..68 => Request::Static(self.pick(seat)),
            _ => Request::Dynamic(self.pick(seat), self.time()),
        };
        Call {
            seat,
            lent: self.lengths(),
            request,
        }
    }

    /// A change by another hand: a number or a byte of one seat's parts, a count, or a setting.
    fn poke(&mut self) -> Poke {
        let seat = self.rng.one_of(&self.seats);
        let n = self.vertices(seat);
        let number = any(&mut self.rng);
        let place = match self.rng.chance(0.9) {
            true => self.rng.below(3 * n.min(32)),
            false => self.rng.below(96),
        };
        match self.rng.below(20) {
            0..4 => Poke::Rest(192 * seat + 96 * self.rng.below(2) + place, number),
            4..14 => Poke::Drape(384 * seat + 96 * self.rng.below(4) + place, number),
            14..17 => Poke::Pins(128 * seat + self.rng.below(128), self.rng.bits() as u8),
            17 => {
                self.cures.push(Poke::Count(seat, n.min(32)));
                Poke::Count(seat, self.rng.one_of(&[0, 1, 2, 5, 32, 33, usize::MAX]))
            }
            _ => {
                let i = self.rng.below(5);
                self.cures.push(Poke::Setting(seat, i, 0.7));
                Poke::Setting(seat, i, number)
            }
        }
    }
}
