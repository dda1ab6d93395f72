// Stands in for the crate of this name: the stages read only x and y of a point.

#[derive(Clone, Copy, Debug, PartialEq)]
pub struct Point2<T> {
    pub x: T,
    pub y: T,
}
