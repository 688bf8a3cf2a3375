//! What is asked of the record and of settings beside their layout.

use crate::{same_all, Record, Settings};

impl Settings {
    pub fn numbers(&self) -> [f64; 5] {
        let [b0, b1, b2] = self.stiff_bendtwist();
        [self.stiff_length, b0, b1, b2, self.conv_ratio]
    }

    pub fn stiff_bendtwist(&self) -> [f64; 3] {
        [
            self.stiff_bendtwist0,
            self.stiff_bendtwist1,
            self.stiff_bendtwist2,
        ]
    }

    pub fn from_numbers([stiff_length, b0, b1, b2, conv_ratio]: [f64; 5]) -> Settings {
        Settings {
            stiff_length,
            stiff_bendtwist0: b0,
            stiff_bendtwist1: b1,
            stiff_bendtwist2: b2,
            conv_ratio,
        }
    }
}

impl Record {
    pub fn same(&self, other: &Record) -> bool {
        let settings = |r: &Record| r.settings.map(|s| s.numbers());
        self.counts == other.counts
            && same_all(
                settings(self).as_flattened(),
                settings(other).as_flattened(),
            )
    }
}
