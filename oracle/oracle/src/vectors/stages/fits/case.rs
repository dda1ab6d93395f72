// A case of the classes' call with its fits.

use crate::calls;
use crate::told::Told;
use crate::vectors::form::{add_list, bits};
use crate::vectors::stages::Case;
use crate::vectors::{ByRule, Vector};
use frame::Frame;

/// The kind's word.
const KIND: u32 = 10;

/// Numbers that no call writes: neither distances nor -1.
const LENT: [f32; 5] = [2.5, -0.5, 1e30, f32::NEG_INFINITY, -1.5];

/// Fits as they are lent: the last of the numbers fills the list.
pub fn lent(length: usize) -> Vec<f32> {
    (0..length).map(|i| LENT[i.min(LENT.len() - 1)]).collect()
}

/// The call by the rule that its frame's parameters have, and what the fits hold before it.
#[derive(Clone, Debug)]
pub struct Fitted {
    pub case: Case,
    pub fits: Vec<f32>,
}

impl Fitted {
    /// A case whose fits pair with its half-edges.
    pub fn of(case: Case) -> Fitted {
        let fits = lent(case.frame.half_edges());
        Fitted { case, fits }
    }

    pub fn frame(frame: Frame) -> Fitted {
        Fitted::of(Case::classes(frame))
    }
}

impl Vector for Fitted {
    type Answer = Told<0, 2>;

    fn kind(&self) -> &'static str {
        "fits"
    }

    fn words(&self) -> Vec<u32> {
        let mut words = ByRule(self.case.clone()).words();
        words[0] = KIND;
        add_list(&mut words, &bits(&self.fits));
        words
    }

    fn answer(&self) -> Told<0, 2> {
        let Case { frame, classes, .. } = &self.case;
        Told::by_classes(classes, &self.fits, |classes, fits| calls::classes(frame, classes, fits))
    }
}
