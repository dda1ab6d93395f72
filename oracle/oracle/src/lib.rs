// The oracle above both builds of the original.

pub mod calls;
pub mod command;
pub mod compare;
pub mod demand;
pub mod examples;
pub mod frames;
pub mod gap;
pub mod generate;
pub mod judge;
pub mod near;
pub mod places;
pub mod quads_text;
pub mod random;
pub mod stages;
pub mod text;
pub mod told;
pub mod vectors;
pub mod walked;
pub mod words;
