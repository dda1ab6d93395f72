// A case: one call's whole input.

use crate::calls::{self, words_wanted, Given};
use crate::generate::patterns::corners;
use crate::told::Told;
use crate::vectors::form::{add_list, said_over, untouched};
use crate::vectors::{OverQuads, Vector};

/// The number that begins the case in a file; those below it are the stages' and the filters'.
const KIND: u32 = 5;

/// The last three lists are what they hold before the call.
#[derive(Clone, Debug)]
pub struct Case {
    pub quads: Vec<u32>,
    pub corners: u32,
    pub least_quads: u32,
    pub least_corners: u32,
    pub work: Vec<u32>,
    pub components: Vec<u32>,
    pub entries: Vec<u32>,
}

impl Case {
    /// Quads over the corners that they name, with least numbers that drop nothing, the workspace
    /// that is wanted, and more room than any answer fills.
    pub fn of(quads: &[[u32; 4]]) -> Case {
        let corners = corners(quads);
        Case {
            quads: quads.concat(),
            corners,
            least_quads: 0,
            least_corners: 0,
            work: untouched(words_wanted(quads.len(), corners as usize)),
            components: untouched(3 * quads.len() + 4),
            entries: untouched(12 * quads.len() + 5),
        }
    }

    /// The same, with these least numbers of quads and of corners.
    pub fn by(&self, least_quads: u32, least_corners: u32) -> Case {
        self.with(|case| (case.least_quads, case.least_corners) = (least_quads, least_corners))
    }

    pub fn given(&self) -> Given<'_> {
        Given {
            quads: &self.quads,
            corners: self.corners,
            least_quads: self.least_quads,
            least_corners: self.least_corners,
        }
    }

    /// The lists that the call may change.
    pub fn lent(&self) -> [Vec<u32>; 3] {
        [self.work.clone(), self.components.clone(), self.entries.clone()]
    }
}

impl Vector for Case {
    /// The numbers of components and entries; then the workspace, the components and the entries.
    type Answer = Told<2, 3>;

    fn kind(&self) -> &'static str {
        "labels"
    }

    /// Kind, least quads, least corners, corners, the length of the quad list, lists; of the quads
    /// only those that are said over.
    fn words(&self) -> Vec<u32> {
        let mut words = vec![KIND, self.least_quads, self.least_corners, self.corners];
        words.push(self.quads.len() as u32);
        add_list(&mut words, said_over(&self.quads));
        self.lent().iter().for_each(|list| add_list(&mut words, list));
        words
    }

    /// By the unchanged walk.
    fn answer(&self) -> Told<2, 3> {
        Told::by(self.lent(), |[work, components, entries]| {
            calls::labels(&self.given(), work, components, entries)
        })
    }
}

impl OverQuads for Case {
    fn read(&self) -> (usize, [&[u32]; 2]) {
        (self.corners as usize, [&self.quads, &self.work])
    }

    fn lists(&mut self) -> [&mut Vec<u32>; 2] {
        [&mut self.quads, &mut self.work]
    }

    fn crowd(&mut self, corners: u32) {
        self.corners = corners;
        self.work = untouched(self.wanted().min(65_700));
    }
}
