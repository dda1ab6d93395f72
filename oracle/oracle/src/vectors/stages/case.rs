// A case: one call's whole input.

use super::answer::{answer, Answer};
use super::words::words;
use crate::vectors::form::untouched;
use crate::vectors::{Spreads, Vector};
use frame::Frame;

#[derive(Clone, Copy, Debug, PartialEq, Eq)]
pub enum Kind {
    Axis,
    Classes,
    Quads,
}

impl Kind {
    pub const ALL: [Kind; 3] = [Kind::Axis, Kind::Classes, Kind::Quads];

    /// What the names of its files begin with.
    pub fn name(self) -> &'static str {
        ["axis", "classes", "quads"][self as usize]
    }
}

/// The lists that a kind does not have are not looked at. The class list of classes and the
/// quad list of quads are what they hold before the call.
#[derive(Clone, Debug)]
pub struct Case {
    pub kind: Kind,
    pub frame: Frame,
    pub classes: Vec<u32>,
    pub quads: Vec<u32>,
}

impl Case {
    /// The axis cache of a frame's only corner.
    pub fn axis(frame: Frame) -> Case {
        Case { kind: Kind::Axis, frame, classes: Vec::new(), quads: Vec::new() }
    }

    pub fn classes(frame: Frame) -> Case {
        let classes = untouched(frame.half_edges());
        Case { kind: Kind::Classes, frame, classes, quads: Vec::new() }
    }

    /// Quads with a class list, and room for all and more.
    pub fn quads(frame: Frame, classes: Vec<u32>) -> Case {
        let quads = untouched(4 * (frame.half_edges() / 6) + 5);
        Case { kind: Kind::Quads, frame, classes, quads }
    }

    /// Quads with the classes that the ruled build gives.
    pub fn quads_of(frame: Frame) -> Case {
        let classes = ruled::classes(&frame);
        Case::quads(frame, classes)
    }
}

impl Vector for Case {
    type Answer = Answer;

    fn kind(&self) -> &'static str {
        self.kind.name()
    }

    fn words(&self) -> Vec<u32> {
        words(self)
    }

    fn answer(&self) -> Answer {
        answer(self)
    }
}

impl Spreads for Case {
    fn frame(&self) -> &Frame {
        &self.frame
    }

    fn frame_mut(&mut self) -> &mut Frame {
        &mut self.frame
    }
}
