// What every stage of a run gave, in document 01's numbers and order; the holes are document 02's.

use crate::holes;

/// The axis cache of one corner.
#[derive(Clone, Copy, Debug)]
pub struct AxisPair {
    pub angles: [f32; 2],
    pub informative: [bool; 2],
}

impl AxisPair {
    /// Equal by bits, so that a NaN equals itself.
    pub fn same(&self, other: &AxisPair) -> bool {
        self.angles.map(f32::to_bits) == other.angles.map(f32::to_bits)
            && self.informative == other.informative
    }
}

/// A labelled corner.
#[derive(Clone, Copy, Debug, PartialEq, Eq, PartialOrd, Ord)]
pub struct Entry {
    pub u: i32,
    pub v: i32,
    pub corner: u32,
}

/// The entries by u, then v, and how many places of their rectangle are holes.
#[derive(Clone, Debug, Default, PartialEq, Eq)]
pub struct Component {
    pub entries: Vec<Entry>,
    pub holes: u32,
}

impl Component {
    /// Orders the entries and counts the holes. No place holds two corners.
    pub fn of(mut entries: Vec<Entry>) -> Component {
        entries.sort();
        let holes = holes(&entries);
        Component { entries, holes }
    }
}

/// The answers of all stages. Classes are 0 Spurious, 1 Grid, 2 Diagonal.
#[derive(Clone, Debug, Default)]
pub struct Stages {
    pub axes: Vec<AxisPair>,
    pub classes: Vec<u32>,
    pub quads: Vec<[u32; 4]>,
    pub topology: Vec<[u32; 4]>,
    pub geometry: Vec<[u32; 4]>,
    pub scale: Vec<[u32; 4]>,
    pub components: Vec<Component>,
}
