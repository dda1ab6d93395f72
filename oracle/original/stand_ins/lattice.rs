// Stands in for the original's lattice module, which needs serde, more of nalgebra and
// three files that are not given. The walk uses only this: two fields, compared and hashed.

#[derive(Clone, Copy, Debug, Default, PartialEq, Eq, Hash, PartialOrd, Ord)]
pub struct Coord {
    pub u: i32,
    pub v: i32,
}

impl Coord {
    pub const fn new(u: i32, v: i32) -> Self {
        Coord { u, v }
    }
}
