// What goes into a run and what comes out of it, shared by both builds of the original.

mod holes;
mod input;
mod stages;

pub use holes::{holes, places, Place};
pub use input::{Frame, Params, NONE};
pub use stages::{AxisPair, Component, Entry, Stages};
