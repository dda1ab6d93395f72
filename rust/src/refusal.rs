//! Why a call refused.

use std::error::Error;
use std::fmt;

/// Why a call refused, and where. Each case but the last is a row of the table in `include/ngeunsadok.h`; [`number`](Refusal::number),
/// [`place`](Refusal::place) and, for a wrong twin, [`beside`](Refusal::beside) are what the archive gave, and printed, a refusal says in
/// words what is wrong and where.
///
/// A call gives the first case that applies, in this order, of those that it can give. Of the three faults of a twin it gives the first one
/// of the first half-edge that has any.
#[derive(Clone, Copy, Debug, PartialEq, Eq)]
#[non_exhaustive]
pub enum Refusal {
    /// 1: paired lists differ in length, or a list of triangles or quads is not whole.
    Lengths,
    /// 2: there are more than 4,096 corners, 24,576 half-edges or 4,096 quads.
    Limit,
    /// 3: a parameter is NaN: 0 tolerance, 1 opposing ratio, 2 least relative length, 3 greatest relative length, 4 spread limit.
    Parameter { place: u32 },
    /// 18: the spread rule is neither 1 nor 2. The calls of this package never give it: their rules are those of
    /// [`SpreadRule`](crate::SpreadRule).
    Rule,
    /// 4: a position is not finite or above 1,048,576 in magnitude. Of a call that takes single numbers, one of them is out of range, and
    /// the corner is 0.
    Range { corner: u32 },
    /// 5: a list names a corner that does not exist, or has a class above 2, at this position.
    Named { position: u32 },
    /// 6: this triangle or quad names a corner twice.
    Twice { cell: u32 },
    /// 7: the twin of this half-edge is past the end of the list.
    TwinPastEnd { half_edge: u32, twin: u32 },
    /// 11: the twin of this half-edge does not point back: its own twin is not this half-edge.
    TwinNotBack { half_edge: u32, twin: u32 },
    /// 12: the twin of this half-edge does not run between the same corners the other way.
    TwinElsewhere { half_edge: u32, twin: u32 },
    /// 8: the workspace is shorter than this many words.
    Workspace { words: u32 },
    /// 9: the list of components or of quads has less room than this many records.
    Records { wanted: u32 },
    /// 10: the list of entries has less room than this many.
    Entries { wanted: u32 },
    /// What the archive gave is in no row that this package knows.
    Other { number: u32, place: u32, beside: u32 },
}

impl Refusal {
    /// The row's number.
    pub const fn number(self) -> u32 {
        match self {
            Refusal::Lengths => 1,
            Refusal::Limit => 2,
            Refusal::Parameter { .. } => 3,
            Refusal::Rule => 18,
            Refusal::Range { .. } => 4,
            Refusal::Named { .. } => 5,
            Refusal::Twice { .. } => 6,
            Refusal::TwinPastEnd { .. } => 7,
            Refusal::TwinNotBack { .. } => 11,
            Refusal::TwinElsewhere { .. } => 12,
            Refusal::Workspace { .. } => 8,
            Refusal::Records { .. } => 9,
            Refusal::Entries { .. } => 10,
            Refusal::Other { number, .. } => number,
        }
    }

    /// The row's place: what the case carries, of a half-edge and its twin the half-edge, or 0 where it carries nothing.
    pub const fn place(self) -> u32 {
        match self {
            Refusal::Lengths | Refusal::Limit | Refusal::Rule => 0,
            Refusal::Parameter { place } | Refusal::Other { place, .. } => place,
            Refusal::Range { corner } => corner,
            Refusal::Named { position } => position,
            Refusal::Twice { cell } => cell,
            Refusal::TwinPastEnd { half_edge, .. }
            | Refusal::TwinNotBack { half_edge, .. }
            | Refusal::TwinElsewhere { half_edge, .. } => half_edge,
            Refusal::Workspace { words } => words,
            Refusal::Records { wanted } | Refusal::Entries { wanted } => wanted,
        }
    }

    /// The twin's own value beside the place, where a twin is at fault.
    pub const fn beside(self) -> Option<u32> {
        match self {
            Refusal::TwinPastEnd { twin, .. } | Refusal::TwinNotBack { twin, .. } | Refusal::TwinElsewhere { twin, .. } => {
                Some(twin)
            }
            _ => None,
        }
    }

    /// The refusal with that number, that place and that word beside it.
    const fn of(number: u32, place: u32, beside: u32) -> Refusal {
        match (number, place, beside) {
            (1, 0, 0) => Refusal::Lengths,
            (2, 0, 0) => Refusal::Limit,
            (3, 0..=4, 0) => Refusal::Parameter { place },
            (18, 0, 0) => Refusal::Rule,
            (4, corner, 0) => Refusal::Range { corner },
            (5, position, 0) => Refusal::Named { position },
            (6, cell, 0) => Refusal::Twice { cell },
            (7, half_edge, twin) => Refusal::TwinPastEnd { half_edge, twin },
            (11, half_edge, twin) => Refusal::TwinNotBack { half_edge, twin },
            (12, half_edge, twin) => Refusal::TwinElsewhere { half_edge, twin },
            (8, words, 0) => Refusal::Workspace { words },
            (9, wanted, 0) => Refusal::Records { wanted },
            (10, wanted, 0) => Refusal::Entries { wanted },
            (number, place, beside) => Refusal::Other { number, place, beside },
        }
    }
}

/// What a call gives where it does not refuse. An answer that has no word beside the place has 0 for it.
pub(crate) fn told<T>(refused: u32, place: u32, beside: u32, given: T) -> Result<T, Refusal> {
    match refused {
        0 => Ok(given),
        number => Err(Refusal::of(number, place, beside)),
    }
}

/// The parameters by the places that a refusal gives them.
const PARAMETERS: [&str; 5] =
    ["tolerance", "opposing ratio", "least relative length", "greatest relative length", "spread limit"];

impl fmt::Display for Refusal {
    fn fmt(&self, f: &mut fmt::Formatter<'_>) -> fmt::Result {
        match *self {
            Refusal::Lengths => write!(f, "paired lists differ in length, or a list of triangles or quads is not whole"),
            Refusal::Limit => write!(f, "there are more than 4,096 corners, 24,576 half-edges or 4,096 quads"),
            Refusal::Parameter { place } => {
                write!(f, "the {} is NaN", PARAMETERS.get(place as usize).unwrap_or(&"parameter"))
            }
            Refusal::Rule => write!(f, "the spread rule is neither 1 nor 2"),
            Refusal::Range { corner: 0 } => write!(f, "the position of corner 0, or the single number given, is out of range"),
            Refusal::Range { corner } => write!(f, "the position of corner {corner} is out of range"),
            Refusal::Named { position } => {
                write!(f, "position {position} of a list names a corner that does not exist, or a class above 2")
            }
            Refusal::Twice { cell } => write!(f, "triangle or quad {cell} names a corner twice"),
            Refusal::TwinPastEnd { half_edge, twin } => {
                write!(f, "the twin {twin} of half-edge {half_edge} is past the end of the list")
            }
            Refusal::TwinNotBack { half_edge, twin } => {
                write!(f, "the twin {twin} of half-edge {half_edge} does not point back")
            }
            Refusal::TwinElsewhere { half_edge, twin } => {
                write!(f, "the twin {twin} of half-edge {half_edge} does not run between the same corners the other way")
            }
            Refusal::Workspace { words } => write!(f, "the workspace is too short; words wanted: {words}"),
            Refusal::Records { wanted } => {
                write!(f, "the list of components or quads is too short; records wanted: {wanted}")
            }
            Refusal::Entries { wanted } => write!(f, "the list of entries is too short; entries wanted: {wanted}"),
            Refusal::Other { number, place, beside } => write!(f, "refusal {number} at place {place}, beside it {beside}"),
        }
    }
}

impl Error for Refusal {}

#[cfg(test)]
mod tests {
    use super::*;

    const PLACES: [u32; 6] = [0, 1, 4, 5, 77, u32::MAX];

    /// The word beside the place that a refusal was made of.
    fn word_beside(refusal: Refusal) -> u32 {
        match refusal {
            Refusal::Other { beside, .. } => beside,
            known => known.beside().unwrap_or(0),
        }
    }

    /// Nothing that the archive can give is lost: not a number without a row, not a place or a word beside it that its row does not have.
    #[test]
    fn every_number_and_place_is_told() {
        let places = || PLACES.iter().flat_map(|&place| PLACES.map(|beside| (place, beside)));
        let mut words = Vec::new();
        for (number, (place, beside)) in (1..30).flat_map(|number| places().map(move |at| (number, at))) {
            let refusal = told(number, place, beside, ()).expect_err("a refusal");
            assert_eq!((refusal.number(), refusal.place(), word_beside(refusal)), (number, place, beside));
            words.push(refusal.to_string());
        }
        assert_eq!(told(0, 7, 7, "given"), Ok("given"));
        words.sort();
        words.dedup();
        assert_eq!(words.len(), 29 * 6 * 6, "two refusals with the same words");
    }

    #[test]
    fn a_number_without_a_row_is_other() {
        let other = |number, place, beside| Err(Refusal::Other { number, place, beside });
        assert_eq!(told(13, 3, 2, ()), other(13, 3, 2));
        assert_eq!(told(1, 3, 0, ()), other(1, 3, 0));
        assert_eq!(told(3, 5, 0, ()), other(3, 5, 0));
        assert_eq!(told(18, 1, 0, ()), other(18, 1, 0));
        assert_eq!(told(10, 4, 2, ()), other(10, 4, 2));
        assert_eq!(Refusal::of(13, 3, 2).to_string(), "refusal 13 at place 3, beside it 2");
    }

    #[test]
    fn another_rule_has_place_0() {
        assert_eq!(told(18, 0, 0, ()), Err(Refusal::Rule));
        assert_eq!(Refusal::Rule.to_string(), "the spread rule is neither 1 nor 2");
        assert_eq!(Refusal::Rule.beside(), None);
    }

    #[test]
    fn a_fault_of_a_twin_names_both() {
        let faults = [
            (7, Refusal::TwinPastEnd { half_edge: 5, twin: 24_576 }, "the twin 24576 of half-edge 5 is past the end of the list"),
            (11, Refusal::TwinNotBack { half_edge: 5, twin: 0 }, "the twin 0 of half-edge 5 does not point back"),
            (
                12,
                Refusal::TwinElsewhere { half_edge: 5, twin: 2 },
                "the twin 2 of half-edge 5 does not run between the same corners the other way",
            ),
        ];
        for (number, fault, words) in faults {
            let twin = fault.beside().expect("a twin");
            assert_eq!(told(number, 5, twin, ()), Err(fault));
            assert_eq!(fault.to_string(), words);
        }
        assert_eq!(Refusal::of(8, 5, 0).beside(), None);
    }
}
