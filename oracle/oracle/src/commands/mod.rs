// The program's commands, one file each.

pub mod compare;
pub mod demand;
pub mod examples;
pub mod frames;
pub mod gap;
pub mod gridlabel;
pub mod label;
pub mod quads;
pub mod vectors;
