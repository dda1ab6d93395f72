// Copies the original's stages to OUT_DIR with document 01's angle and distance put in for its
// own, and fails unless exactly the known places were changed. Behind the classes' copy a module
// is added that reads the matches.

#[path = "../original/tree.rs"]
mod tree;

use std::path::PathBuf;
use std::{env, fs};

/// The original's two names, and how often code (comments left out) writes each:
/// file, calls of the angle, calls of the distance, imports of the distance.
const PLACES: [(&str, usize, usize, usize); 6] = [
    ("axis", 0, 0, 0),
    ("classify", 1, 1, 1),
    ("quads", 4, 0, 0),
    ("filter", 0, 0, 0),
    ("walk", 0, 0, 0),
    ("delaunay", 0, 0, 0),
];

/// What is looked for and what takes its place. The import stays, without its name,
/// so that the call can only mean the rule.
const ANGLE: (&str, &str) = (".atan2(", ".angle_by_rule(");
const DISTANCE: (&str, &str) = ("angular_dist_pi(", "rules::distance(");
const IMPORT: (&str, &str) = ("angular_dist_pi;", "angular_dist_pi as _;");

/// Changes the code part of a line and counts; comments stay as they are.
fn changed(line: &str, counts: &mut [usize; 3]) -> String {
    let code_ends = line.find("//").unwrap_or(line.len());
    let (code, comment) = line.split_at(code_ends);
    let mut code = code.to_string();
    for (count, (from, to)) in counts.iter_mut().zip([ANGLE, DISTANCE, IMPORT]) {
        *count += code.matches(from).count();
        code = code.replace(from, to);
    }
    let left = code.replace(IMPORT.1, "");
    assert!(!left.contains("atan2"), "an angle was left in: {line}");
    assert!(!left.contains("angular_dist_pi"), "a distance was left in: {line}");
    code + comment + "\n"
}

fn copy_of(name: &str) -> PathBuf {
    let path = tree::original(&format!("topological/{name}.rs"));
    let text = fs::read_to_string(&path).unwrap_or_else(|e| panic!("{}: {e}", path.display()));
    let mut counts = [0; 3];
    let mut copy: String = text.lines().map(|line| changed(line, &mut counts)).collect();
    let place = PLACES.iter().find(|p| p.0 == name).expect("a known stage");
    assert_eq!(counts, [place.1, place.2, place.3], "places changed in {name}.rs");
    if place.1 > 0 {
        copy += "use crate::AngleByRule as _;\n";
    }
    if name == "classify" {
        let matches = tree::manifest_dir().join("src/matches.rs");
        copy += &tree::module(&matches, "matches", "pub ");
    }
    let out =
        PathBuf::from(env::var("OUT_DIR").expect("cargo sets OUT_DIR")).join(format!("{name}.rs"));
    fs::write(&out, copy).expect("OUT_DIR takes files");
    out
}

fn main() {
    tree::write_tree(copy_of);
}
