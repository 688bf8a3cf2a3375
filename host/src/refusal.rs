//! Why the bench declines a call.

use std::fmt;

/// Why a call was declined. The bench answers the lowest number that applies.
#[derive(Clone, Copy, Debug, PartialEq, Eq, Hash)]
pub enum Refusal {
    /// 1: an area of a wrong length, or a record that no call leaves.
    AreaOrRecord = 1,
    /// 2: the seat is 6 or more.
    NoSuchSeat = 2,
    /// 3: a load on a taken seat, or another call on an empty one.
    SeatState = 3,
    /// 4: fewer than 2 or more than 32 vertices, or lists that do not fit them.
    Count = 4,
    /// 5: a vertex, component or kind that is not there.
    Index = 5,
    /// 6: a number that is not finite, a setting below 0, or a time that is not above 0.
    Number = 6,
    /// 7: an edge whose squared length is not finite or not above 0.
    Edge = 7,
    /// 8: an assembled number that is not finite.
    System = 8,
    /// 9: a ratio or a solution that is not finite.
    Solution = 9,
    /// 10: an edge that would turn back on itself.
    Turn = 10,
    /// 11: a number that the step would leave is not finite.
    DrapeNotFinite = 11,
}

impl Refusal {
    /// All refusals, by their number.
    pub const ALL: [Refusal; 11] = [
        Refusal::AreaOrRecord,
        Refusal::NoSuchSeat,
        Refusal::SeatState,
        Refusal::Count,
        Refusal::Index,
        Refusal::Number,
        Refusal::Edge,
        Refusal::System,
        Refusal::Solution,
        Refusal::Turn,
        Refusal::DrapeNotFinite,
    ];

    /// The number, 1 to 11.
    pub fn number(self) -> u8 {
        self as u8
    }

    /// The refusal with a number, if there is one.
    ///
    /// ```
    /// use hairbench::Refusal;
    /// assert_eq!(Refusal::from_number(10), Some(Refusal::Turn));
    /// assert_eq!(Refusal::from_number(0), None);
    /// ```
    pub fn from_number(number: u8) -> Option<Refusal> {
        Refusal::ALL.into_iter().find(|r| r.number() == number)
    }
}

impl fmt::Display for Refusal {
    fn fmt(&self, f: &mut fmt::Formatter<'_>) -> fmt::Result {
        f.write_str(match self {
            Refusal::AreaOrRecord => "An area has a wrong length, or the record is one that no call leaves.",
            Refusal::NoSuchSeat => "There is no such seat: they are 0 to 5.",
            Refusal::SeatState => "The seat is taken and was to be loaded, or it is empty.",
            Refusal::Count => "A strand has 2 to 32 vertices, and three numbers a vertex in each list.",
            Refusal::Index => "The strand has no such vertex, component or kind.",
            Refusal::Number => "A number is not finite, a stiffness or ratio is below 0, or the time is not above 0.",
            Refusal::Edge => "An edge is too short or too long to work with.",
            Refusal::System => "Energy, gradient or matrix is not finite.",
            Refusal::Solution => "The solve ended with a number that is not finite.",
            Refusal::Turn => "An edge would turn back on itself.",
            Refusal::DrapeNotFinite => "The step would leave a number that is not finite.",
        })
    }
}

impl std::error::Error for Refusal {}

#[cfg(test)]
mod tests {
    use super::*;

    #[test]
    fn numbers_run_from_1_to_11() {
        let numbers: Vec<u8> = Refusal::ALL.iter().map(|r| r.number()).collect();
        assert_eq!(numbers, (1..=11).collect::<Vec<u8>>());
        for r in Refusal::ALL {
            assert_eq!(Refusal::from_number(r.number()), Some(r));
        }
        assert_eq!(Refusal::from_number(12), None);
    }

    #[test]
    fn each_says_one_sentence_of_its_own() {
        let said: std::collections::HashSet<String> = Refusal::ALL.iter().map(|r| r.to_string()).collect();
        assert_eq!(said.len(), 11);
        assert!(said.iter().all(|s| s.ends_with('.') && s.matches('.').count() == 1));
    }
}
