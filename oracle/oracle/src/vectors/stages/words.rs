// A case as 32-bit words: its kind, then its parts.

use super::{Case, Kind};
use crate::vectors::form::{add_list, bits};

/// The lists of a case with their names, in the order of its parts.
pub fn lists(case: &Case) -> Vec<(&'static str, Vec<u32>)> {
    let frame = &case.frame;
    let (x, y) = (("x", bits(&frame.x)), ("y", bits(&frame.y)));
    let triangles = ("triangles", frame.triangles.clone());
    let classes = ("classes", case.classes.clone());
    match case.kind {
        Kind::Axis => Vec::new(),
        Kind::Classes => {
            let angles = ("angles", bits(&frame.angles));
            let marks = ("marks", frame.marks.clone());
            let spreads = ("spreads", bits(&frame.spreads));
            vec![x, y, angles, marks, spreads, triangles, classes]
        }
        Kind::Quads => {
            let twins = ("twins", frame.twins.clone());
            vec![x, y, triangles, twins, classes, ("quads", case.quads.clone())]
        }
    }
}

fn numbers(case: &Case) -> Vec<u32> {
    let frame = &case.frame;
    match case.kind {
        Kind::Axis => {
            let slot =
                |k: usize| [frame.angles[k].to_bits(), frame.marks[k], frame.spreads[k].to_bits()];
            [&slot(0)[..], &slot(1), &[frame.params.spread_limit.to_bits()]].concat()
        }
        Kind::Classes => bits(&[frame.params.tolerance, frame.params.spread_limit]),
        Kind::Quads => Vec::new(),
    }
}

/// All words of a case.
pub fn words(case: &Case) -> Vec<u32> {
    let mut words = vec![case.kind as u32 + 1];
    words.extend(numbers(case));
    for (_, list) in lists(case) {
        add_list(&mut words, &list);
    }
    words
}
