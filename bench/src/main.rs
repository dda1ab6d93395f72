// `bench` lists its commands: times beside the Rust, and long comparisons, of the archive's calls.

mod archive;
mod check;
mod check_filters;
mod check_frames;
mod check_labels;
mod check_order;
mod drawn;
mod filters;
mod frames;
mod labels;
mod meshes;
mod numbers;
mod stages;
mod tally;
mod timing;

use oracle::command::{count_and_seed, program, Command, Outcome};
use std::process::ExitCode;

const HELP: &str = "\
bench numbers                 time per root, angle and distance beside the Rust's
bench filters                 time of the filters beside the Rust's
bench labels                  time of the labelling beside the Rust's
bench frames                  time of whole frames and of each stage beside the unchanged Rust's
bench check roots             every f32's root beside the machine's own
bench check pairs COUNT SEED  angles and distances beside document 01's rules in Rust
bench check filters COUNT SEED
                              the filters on drawn lists beside the ruled Rust, every word; in one of five the median decides
bench check labels COUNT SEED the labelling on drawn lists beside the Rust's walk, every word; one in four is of sheets with
                              parts cut out
bench check order COUNT SEED  the same on drawn lists in several orders of their quads: groups joined through sides run in opposite
                              senses agree up to a turn and a shift, and of the others how many differ
bench check frames COUNT SEED whole frames and their stages beside the ruled and the unchanged Rust, every word;
                              one in 500 has 4,096 corners and 24,576 half-edges, one in six is of sheets with parts cut out
bench help                    this list
A check that finds a difference ends with status 1; no words, or words that cannot be read, with status 2.
Document 01 is the customer's paper with the rules that the port follows; docs/GUIDE.md has what a user needs of it.
";

const COMMANDS: [Command; 10] = [
    ("numbers", 0..=0, |_| timed(numbers::run)),
    ("filters", 0..=0, |_| timed(filters::run)),
    ("labels", 0..=0, |_| timed(labels::run)),
    ("frames", 0..=0, |_| timed(frames::run)),
    ("check roots", 0..=0, |_| Ok(check::roots())),
    ("check pairs", 2..=2, |words| compared(words, check::pairs)),
    ("check filters", 2..=2, |words| compared(words, |count, seed| check_filters::FILTERS.check(count, seed))),
    ("check labels", 2..=2, |words| compared(words, |count, seed| check_labels::LABELS.check(count, seed))),
    ("check order", 2..=2, |words| compared(words, check_order::check)),
    ("check frames", 2..=2, |words| compared(words, check_frames::check)),
];

fn timed(run: fn()) -> Outcome {
    run();
    Ok(true)
}

fn compared(words: &[String], check: fn(u64, u64) -> bool) -> Outcome {
    count_and_seed(words).map(|(count, seed)| check(count, seed))
}

fn main() -> ExitCode {
    program(&COMMANDS, HELP)
}
