//! The words of a line, taken one by one, and its `key=value` settings, taken by name.

use crate::script::Who;
use hairbench::SEATS;

pub struct Words<'a> {
    words: std::vec::IntoIter<&'a str>,
    keys: Vec<(&'a str, &'a str)>,
}

/// A finite number.
pub fn number(word: &str) -> Result<f64, String> {
    match word.parse::<f64>() {
        Ok(x) if x.is_finite() => Ok(x),
        _ => Err(format!("`{word}` is not a finite number")),
    }
}

fn whole(word: &str) -> Result<usize, String> {
    word.parse::<usize>().map_err(|_| format!("`{word}` is not a whole number"))
}

/// Three numbers with commas between.
fn triple(word: &str) -> Result<[f64; 3], String> {
    let numbers: Vec<f64> = word.split(',').map(number).collect::<Result<_, _>>()?;
    <[f64; 3]>::try_from(numbers).map_err(|n| format!("`{word}` has {} numbers, not three", n.len()))
}

impl<'a> Words<'a> {
    pub fn new(text: &'a str) -> Result<Words<'a>, String> {
        let mut words = vec![];
        let mut keys: Vec<(&str, &str)> = vec![];
        for word in text.split_whitespace() {
            match word.split_once('=') {
                None => words.push(word),
                Some((key, _)) if keys.iter().any(|k| k.0 == key) => return Err(format!("`{key}=` stands twice")),
                Some(pair) => keys.push(pair),
            }
        }
        Ok(Words { words: words.into_iter(), keys })
    }

    /// The next word, which is called `what` where it is missing.
    pub fn word(&mut self, what: &str) -> Result<&'a str, String> {
        self.words.next().ok_or_else(|| format!("{what} is missing"))
    }

    pub fn number(&mut self, what: &str) -> Result<f64, String> {
        number(self.word(what)?)
    }

    pub fn whole(&mut self, what: &str) -> Result<usize, String> {
        whole(self.word(what)?)
    }

    pub fn seat(&mut self) -> Result<usize, String> {
        match self.whole("a seat")? {
            seat if seat < SEATS => Ok(seat),
            seat => Err(format!("there is no seat {seat}: they are 0 to {}", SEATS - 1)),
        }
    }

    pub fn who(&mut self) -> Result<Who, String> {
        if self.words.as_slice().first() == Some(&"all") {
            self.words.next();
            return Ok(Who::All);
        }
        self.seat().map(Who::Seat)
    }

    /// The value of a key, if it stands there.
    pub fn key(&mut self, name: &str) -> Option<&'a str> {
        let at = self.keys.iter().position(|k| k.0 == name)?;
        Some(self.keys.remove(at).1)
    }

    fn read<T>(&mut self, name: &str, default: T, read: fn(&str) -> Result<T, String>) -> Result<T, String> {
        match self.key(name) {
            None => Ok(default),
            Some(value) => read(value).map_err(|e| format!("{name}=: {e}")),
        }
    }

    pub fn number_key(&mut self, name: &str, default: f64) -> Result<f64, String> {
        self.read(name, default, number)
    }

    pub fn whole_key(&mut self, name: &str, default: usize) -> Result<usize, String> {
        self.read(name, default, whole)
    }

    pub fn triple_key(&mut self, name: &str, default: [f64; 3]) -> Result<[f64; 3], String> {
        self.read(name, default, triple)
    }

    /// One number for all three, or three with commas between.
    pub fn one_or_three_key(&mut self, name: &str, default: f64) -> Result<[f64; 3], String> {
        self.read(name, [default; 3], |value| match value.contains(',') {
            true => triple(value),
            false => number(value).map(|x| [x; 3]),
        })
    }

    /// Nothing may be left over.
    pub fn end(mut self) -> Result<(), String> {
        if let Some(word) = self.words.next() {
            return Err(format!("`{word}` is one word too many"));
        }
        match self.keys.first() {
            Some((key, _)) => Err(format!("`{key}=` means nothing here")),
            None => Ok(()),
        }
    }
}
