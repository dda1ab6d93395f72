// A case: one call's whole input.

use crate::calls::{self, words_wanted};
use crate::told::Told;
use crate::vectors::form::{add_list, bits, said_over, untouched};
use crate::vectors::{OverQuads, Vector};
use frame::{Frame, Params};

/// The number that begins the case in a file; those below it are the stages'.
const KIND: u32 = 4;

/// Of the frame, the positions and three parameters are looked at. The last two lists are what
/// they hold before the call.
#[derive(Clone, Debug)]
pub struct Case {
    pub frame: Frame,
    pub quads: Vec<u32>,
    pub work: Vec<u32>,
    pub kept: Vec<u32>,
}

impl Case {
    /// Points and quads with parameters that drop nothing but crowds, the workspace that is
    /// wanted, and room for all quads and more.
    pub fn of(points: &[(f32, f32)], quads: &[[u32; 4]]) -> Case {
        let (x, y) = points.iter().copied().unzip();
        let any = f32::INFINITY;
        let params = Params { ratio: any, least: 0.0, greatest: any, ..Params::default() };
        Case::over(Frame { x, y, params, ..Frame::default() }, quads)
    }

    /// The same over a frame and its parameters.
    pub fn over(frame: Frame, quads: &[[u32; 4]]) -> Case {
        let work = untouched(words_wanted(quads.len(), frame.corners()));
        let kept = untouched(4 * quads.len() + 5);
        Case { frame, quads: quads.concat(), work, kept }
    }

    /// The same, with these parameters: ratio, least, greatest.
    pub fn by(&self, ratio: f32, least: f32, greatest: f32) -> Case {
        self.with(|case| {
            let params = &mut case.frame.params;
            (params.ratio, params.least, params.greatest) = (ratio, least, greatest);
        })
    }

    /// The lists that the call may change.
    pub fn lent(&self) -> [Vec<u32>; 2] {
        [self.work.clone(), self.kept.clone()]
    }
}

impl Vector for Case {
    /// The number of quads kept; then the workspace and the list of kept quads.
    type Answer = Told<1, 2>;

    fn kind(&self) -> &'static str {
        "filters"
    }

    /// Kind, parameters, the length of the quad list, lists; of the quads only those that are said
    /// over.
    fn words(&self) -> Vec<u32> {
        let params = &self.frame.params;
        let mut words = vec![KIND];
        words.extend(bits(&[params.ratio, params.least, params.greatest]));
        words.push(self.quads.len() as u32);
        add_list(&mut words, &bits(&self.frame.x));
        add_list(&mut words, &bits(&self.frame.y));
        add_list(&mut words, said_over(&self.quads));
        self.lent().iter().for_each(|list| add_list(&mut words, list));
        words
    }

    /// By the ruled build.
    fn answer(&self) -> Told<1, 2> {
        Told::by(self.lent(), |[work, kept]| {
            calls::filters(&self.frame, &self.quads, work, kept).map(|count| [count])
        })
    }
}

impl OverQuads for Case {
    fn read(&self) -> (usize, [&[u32]; 2]) {
        (self.frame.corners(), [&self.quads, &self.work])
    }

    fn lists(&mut self) -> [&mut Vec<u32>; 2] {
        [&mut self.quads, &mut self.work]
    }

    /// The corners that are more are all at one place.
    fn crowd(&mut self, corners: u32) {
        self.frame.x.resize(corners as usize, 10.0);
        self.frame.y.resize(corners as usize, 10.0);
        self.work = untouched(self.wanted());
    }
}
