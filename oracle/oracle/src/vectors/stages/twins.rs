// The rows of twins: those past the end, that do not point back, or run between other corners.

use super::Case;
use crate::vectors::meshes::{mesh, SQUARE};
use crate::vectors::{twin_rows, Vector};
use frame::{Frame, NONE};

/// Two triangles over four corners with chosen twins, their classes as for one quad.
fn two(triangles: [[u32; 3]; 2], twins: [(usize, usize); 1]) -> Case {
    let mut frame: Frame = mesh(&SQUARE, &triangles);
    let mut classes = vec![1; 6];
    frame.twins.fill(NONE);
    for (e, f) in twins {
        (frame.twins[e], frame.twins[f]) = (f as u32, e as u32);
        (classes[e], classes[f]) = (2, 2);
    }
    Case::quads(frame, classes)
}

/// Every half-edge of one triangle with every one of the other: some run the other way
/// between the same corners, some the same way, some share an end, some nothing.
fn all_links(cases: &mut Vec<Case>) {
    let others = [[0, 2, 3], [2, 0, 3], [0, 2, 1], [0, 1, 2], [3, 1, 0]];
    for other in others {
        for e in 0..3 {
            for f in 3..6 {
                cases.push(two([[0, 1, 2], other], [(e, f)]));
            }
        }
    }
}

/// A triangle and the same turned round: three sound pairs of twins and no fourth corner.
fn folded_flat(cases: &mut Vec<Case>) {
    let frame = mesh(&SQUARE, &[[0, 1, 2], [2, 1, 0]]);
    for e in 0..3 {
        let mut classes = vec![1; 6];
        classes[e] = 2;
        classes[frame.twins[e] as usize] = 2;
        cases.push(Case::quads(frame.clone(), classes));
    }
}

/// A frame whose twins are changed, with the classes of the sound one.
fn of_frame(sound: &Frame, changed: Frame) -> Case {
    Case::quads_of(sound.clone()).with(|case| case.frame = changed)
}

pub fn add(cases: &mut Vec<Case>) {
    let mut quads = |sound: &Frame, changed: Frame| cases.push(of_frame(sound, changed));
    twin_rows::single_words(&mut quads);
    twin_rows::several_words(&mut quads);
    all_links(cases);
    folded_flat(cases);
}

/// Which row it is, and at which half-edge.
pub fn faults(cases: &mut Vec<Case>) {
    twin_rows::faults(&mut |sound, changed| cases.push(of_frame(sound, changed)));
}
