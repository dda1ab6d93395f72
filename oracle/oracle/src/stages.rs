// The stages of a frame, by either build of the original.

use frame::{Frame, Stages};

/// Which of the two builds answers.
#[derive(Clone, Copy, Debug, PartialEq, Eq)]
pub enum Build {
    Plain,
    Ruled,
}

impl Build {
    /// All stages of a frame that the judge accepts.
    pub fn run(self, frame: &Frame) -> Stages {
        match self {
            Build::Plain => plain::run(frame),
            Build::Ruled => ruled::run(frame),
        }
    }
}
