// A case: one call's whole input.

use crate::calls::{frame_words, label_frame};
use crate::stages::Build;
use crate::told::Told;
use crate::vectors::form::{add_list, bits, untouched};
use crate::vectors::work::Working;
use crate::vectors::{Spreads, Vector};
use frame::{Frame, Params};

/// The number that begins the case in a file; those below it are the stages', the filters' and the
/// labels'.
const KIND: u32 = 6;

/// The last three lists are what they hold before the call.
#[derive(Clone, Debug)]
pub struct Case {
    pub frame: Frame,
    pub work: Vec<u32>,
    pub components: Vec<u32>,
    pub entries: Vec<u32>,
}

/// The seven numbers of a case: the floats' bits, the least quads, the least corners.
fn numbers(params: &Params) -> Vec<u32> {
    [&bits(&params.floats())[..], &[params.least_quads, params.least_corners]].concat()
}

impl Case {
    /// A frame with the workspace that it wants, and more room than any answer fills: a quad has
    /// two triangles, a component a quad, and a quad four corners.
    pub fn of(frame: Frame) -> Case {
        let quads = frame.half_edges() / 6;
        let work = untouched(frame_words(frame.half_edges(), frame.corners()));
        Case {
            frame,
            work,
            components: untouched(3 * quads + 4),
            entries: untouched(12 * quads + 5),
        }
    }

    /// The same, with these least numbers of quads and of corners.
    pub fn by(&self, least_quads: u32, least_corners: u32) -> Case {
        self.with(|case| {
            let params = &mut case.frame.params;
            (params.least_quads, params.least_corners) = (least_quads, least_corners);
        })
    }

    /// The lists that the call reads and never changes.
    pub fn lists(&self) -> [Vec<u32>; 7] {
        let frame = &self.frame;
        [
            bits(&frame.x),
            bits(&frame.y),
            bits(&frame.angles),
            frame.marks.clone(),
            bits(&frame.spreads),
            frame.triangles.clone(),
            frame.twins.clone(),
        ]
    }

    /// The lists that the call may change.
    pub fn lent(&self) -> [Vec<u32>; 3] {
        [self.work.clone(), self.components.clone(), self.entries.clone()]
    }

    /// What the call tells and leaves, by one of the builds.
    pub fn told(&self, build: Build) -> Told<2, 3> {
        Told::by(self.lent(), |[work, components, entries]| {
            label_frame(&self.frame, build, work, components, entries)
        })
    }
}

impl Vector for Case {
    /// The numbers of components and entries; then the workspace, the components and the entries.
    type Answer = Told<2, 3>;

    fn kind(&self) -> &'static str {
        "frames"
    }

    fn words(&self) -> Vec<u32> {
        let mut words = vec![KIND];
        words.extend(numbers(&self.frame.params));
        self.lists().iter().chain(&self.lent()).for_each(|list| add_list(&mut words, list));
        words
    }

    /// By the ruled build.
    fn answer(&self) -> Told<2, 3> {
        self.told(Build::Ruled)
    }
}

impl Spreads for Case {
    fn frame(&self) -> &Frame {
        &self.frame
    }

    fn frame_mut(&mut self) -> &mut Frame {
        &mut self.frame
    }
}

impl Working for Case {
    fn wanted(&self) -> usize {
        frame_words(self.frame.half_edges(), self.frame.corners())
    }

    fn work_mut(&mut self) -> &mut Vec<u32> {
        &mut self.work
    }
}
