// What becomes of the places of components' rectangles, in counts: how often document 02's questions
// about holes are met, each of them alone too.

use crate::told::Told;
use frame::{places, Entry};
use std::fmt;

#[derive(Clone, Debug, Default, PartialEq, Eq)]
pub struct Places {
    pub components: usize,
    /// Components with holes.
    pub holed: usize,
    pub held: usize,
    pub holes: usize,
    /// Places that one question alone refuses: nothing at a lower u, at a higher u, at a lower v, at
    /// a higher v.
    pub alone: [usize; 4],
    /// Places that several questions refuse.
    pub several: usize,
}

impl Places {
    pub fn add(&mut self, entries: &[Entry]) {
        let holes = self.holes;
        for place in places(entries) {
            let refused = place.beside.iter().filter(|beside| !**beside).count();
            match (place.held, refused) {
                (true, _) => self.held += 1,
                (false, 0) => self.holes += 1,
                (false, 1) => {
                    let refusals = self.alone.iter_mut().zip(place.beside);
                    refusals.for_each(|(alone, beside)| *alone += !beside as usize);
                }
                _ => self.several += 1,
            }
        }
        self.components += 1;
        self.holed += (self.holes > holes) as usize;
    }

    /// The components that a call has written.
    pub fn add_told(&mut self, told: &Told<2, 3>) {
        told.components().iter().for_each(|component| self.add(&component.entries));
    }
}

impl fmt::Display for Places {
    fn fmt(&self, f: &mut fmt::Formatter<'_>) -> fmt::Result {
        let Places { components, holed, held, holes, alone: [left, right, above, below], several } =
            self;
        write!(
            f,
            "of {components} components {holed} with holes; places: {held} held, {holes} holes, \
             refused by the lower u alone {left}, the higher u {right}, the lower v {above}, the \
             higher v {below}, by several {several}"
        )
    }
}
