// The calls of the stages by hand: document 01's words on classes, on room and on what stays.

use frame::{Frame, NONE};
use oracle::calls::{axis_cache, classes, filters, quads};
use oracle::judge::Refusal;
use oracle::told::Told;
use rules::{HALF_PI, PI};

/// Two triangles over a square of side 10, axes along its sides.
fn square() -> Frame {
    let mut frame = Frame::default();
    for (x, y) in [(0.0, 0.0), (10.0, 0.0), (10.0, 10.0), (0.0, 10.0)] {
        frame.add_corner(x, y, [0.0, HALF_PI], [None, None]);
    }
    frame.add_triangle([0, 1, 2], [NONE, NONE, 3]);
    frame.add_triangle([0, 2, 3], [2, NONE, NONE]);
    frame
}

/// The classes and the fits, these by their bits.
fn told_of(frame: &Frame) -> [Vec<u32>; 2] {
    let (list, lent) = (vec![9; frame.half_edges()], vec![9.0; frame.half_edges()]);
    let told = Told::by_classes(&list, &lent, |list, lent| classes(frame, list, lent));
    assert_eq!(told.result, Ok([]));
    told.lists
}

fn classes_of(frame: &Frame) -> Vec<u32> {
    let [classes, _] = told_of(frame);
    classes
}

const QUAD: [u32; 6] = [1, 1, 2, 2, 1, 1];

fn refused<T>(row: u32, place: u32) -> Result<T, Refusal> {
    Err(Refusal::at(row, place))
}

#[test]
fn a_distance_equal_to_the_tolerance_is_spurious() {
    let mut frame = square();
    (0..4).for_each(|c| frame.angles[2 * c] = 0.25);
    frame.params.tolerance = 0.25;
    assert_eq!(classes_of(&frame), [0, 1, 0, 0, 0, 1]);
    frame.params.tolerance = f32::from_bits(0.25f32.to_bits() + 1);
    assert_eq!(classes_of(&frame), QUAD);
}

#[test]
fn slot_0_on_equal_distance() {
    let mut frame = square();
    frame.angles[2..4].fill(0.0);
    frame.params.tolerance = 2.0;
    assert_eq!(classes_of(&frame), [1; 6]);
    frame.params.tolerance = 0.25;
    assert_eq!(classes_of(&frame), [1, 0, 0, 2, 1, 1], "twins differ");
}

#[test]
fn spreads_and_marks() {
    let mut frame = square();
    frame.spreads.fill(f32::NAN);
    assert_eq!(classes_of(&frame), QUAD);
    frame.marks[0] = u32::MAX;
    assert_eq!(classes_of(&frame), [0, 1, 0, 2, 1, 1]);
    frame.spreads[0] = -1.0;
    assert_eq!(classes_of(&frame), QUAD);
    frame.spreads[0] = frame.params.spread_limit;
    assert_eq!(classes_of(&frame), [0, 1, 0, 2, 1, 1]);
    assert_eq!(axis_cache(&frame).map(|pair| pair.informative), Ok([false, true]));
    frame.params.spread_limit = f32::NAN;
    assert_eq!(axis_cache(&frame).map(|pair| pair.informative), refused(3, 4));
}

#[test]
fn the_rule_of_spreads() {
    let mut frame = square();
    frame.marks = vec![0, 1, 1, 1, 1, 1, 1, 1];
    let informative = |frame: &Frame| axis_cache(frame).map(|pair| pair.informative);
    assert_eq!((classes_of(&frame), informative(&frame)), (QUAD.to_vec(), Ok([true; 2])));
    frame.params.spread_rule = 2;
    assert_eq!(classes_of(&frame), [0, 1, 0, 2, 1, 1]);
    assert_eq!(informative(&frame), Ok([false, true]));
    frame.spreads[1] = frame.params.spread_limit;
    assert_eq!(informative(&frame), Ok([false; 2]));
    for rule in [0, 3, u32::MAX] {
        frame.params.spread_rule = rule;
        let (mut list, mut fits) = ([7; 6], [7.5; 6]);
        assert_eq!(classes(&frame, &mut list, &mut fits), refused(18, 0));
        assert_eq!((list, fits), ([7; 6], [7.5; 6]));
        assert_eq!(informative(&frame), refused(18, 0));
    }
    frame.params.spread_limit = f32::NAN;
    assert_eq!(informative(&frame), refused(3, 4));
    assert_eq!(classes(&frame, &mut [7; 6], &mut [7.5; 6]), refused(3, 4));
}

const NO_FIT: u32 = 0xBF80_0000;
const MINUS_0: u32 = 0x8000_0000;

/// The last side runs against its axis, and has -0 at both ends.
#[test]
fn fits_of_a_square() {
    let mut frame = square();
    let fits_from = |first: u32| vec![first, 0, NO_FIT, NO_FIT, 0, MINUS_0];
    assert_eq!(told_of(&frame), [QUAD.to_vec(), fits_from(0)], "the diagonal has none");
    let [eighth, sixteenth] = [0.125f32, 0.0625].map(f32::to_bits);
    (frame.angles[0], frame.angles[2]) = (-0.125, -0.0625);
    assert_eq!(told_of(&frame)[1], fits_from(eighth), "greater at the start");
    frame.angles.swap(0, 2);
    assert_eq!(told_of(&frame)[1], fits_from(eighth), "greater at the end");
    frame.params.tolerance = 0.125;
    assert_eq!(told_of(&frame), [vec![0, 1, 0, 2, 1, 1], fits_from(NO_FIT)], "at the tolerance");
    frame.angles[2] = 0.0625;
    assert_eq!(told_of(&frame)[1], fits_from(sixteenth), "equal ones");
}

/// Of 0 and -0 neither is greater, and the start's bits count.
#[test]
fn fits_of_both_zeros() {
    let mut frame = square();
    for (start, end, bits) in [(0.0, PI, 0), (PI, 0.0, MINUS_0), (PI, PI, MINUS_0)] {
        (frame.angles[0], frame.angles[2]) = (start, end);
        assert_eq!(told_of(&frame)[1][0], bits);
    }
    frame.angles[..2].copy_from_slice(&[0.0, PI]);
    assert_eq!(told_of(&frame)[1][0], 0, "slot 0 on equal distance");
    frame.angles[..2].copy_from_slice(&[PI, 0.0]);
    assert_eq!(told_of(&frame)[1][0], MINUS_0, "slot 0 on equal distance");
    frame.angles[..2].copy_from_slice(&[-0.125, HALF_PI]);
    assert_eq!(told_of(&frame)[1][0], 0.125f32.to_bits());
}

#[test]
fn room() {
    let frame = square();
    for length in 0..12 {
        let mut list: Vec<u32> = (50..50 + length).collect();
        let before = list.clone();
        let result = quads(&frame, &QUAD, &mut list);
        if length < 4 {
            assert_eq!((result, list), (refused(9, 1), before));
        } else {
            assert_eq!((result, &list[..4]), (Ok(1), &[0, 1, 2, 3][..]));
            assert_eq!(list[4..], before[4..]);
        }
    }
    assert_eq!(quads(&frame, &[1; 6], &mut []), Ok(0));
}

#[test]
fn a_list_that_does_not_pair() {
    let frame = square();
    for [classes_lent, fits_lent] in [[5, 6], [7, 6], [6, 5], [6, 7], [5, 5], [6, 0]] {
        let (list, lent) = (vec![7; classes_lent], vec![7.5; fits_lent]);
        let told = Told::by_classes(&list, &lent, |list, lent| classes(&frame, list, lent));
        assert_eq!(told.result, refused(1, 0));
        assert_eq!(told.lists, [list, vec![7.5f32.to_bits(); fits_lent]]);
    }
    assert_eq!(quads(&frame, &QUAD[..5], &mut []), refused(1, 0));
}

#[test]
fn corners_before_classes() {
    let mut frame = square();
    assert_eq!(quads(&frame, &[1, 3, 1, 1, 9, 1], &mut []), refused(5, 1));
    frame.triangles[5] = 4;
    assert_eq!(quads(&frame, &[1, 3, 1, 1, 9, 1], &mut []), refused(5, 5));
    assert_eq!(classes(&frame, &mut [3; 6], &mut [0.5; 6]), refused(5, 5));
}

#[test]
fn which_twin_fault() {
    let twins = |words: [u32; 6]| {
        let frame = Frame { twins: words.to_vec(), ..square() };
        let mut list = [7; 4];
        let result = quads(&frame, &QUAD, &mut list);
        assert_eq!(list, [7; 4]);
        result.map_err(|refusal| [refusal.row, refusal.place, refusal.beside])
    };
    assert_eq!(twins([NONE, NONE, 6, 2, NONE, NONE]), Err([7, 2, 6]));
    assert_eq!(twins([NONE, NONE, 3, 2, NONE, 0]), Err([11, 5, 0]));
    assert_eq!(twins([NONE, 5, 3, 2, NONE, 1]), Err([12, 1, 5]));
}

#[test]
fn rows_that_a_call_lacks() {
    let mut frame = square();
    frame.twins = vec![77];
    frame.params.ratio = f32::NAN;
    assert_eq!(classes_of(&frame), QUAD);
    let mut frame = square();
    frame.angles.clear();
    frame.params.tolerance = f32::NAN;
    frame.params.spread_rule = 3;
    assert_eq!(quads(&frame, &QUAD, &mut [0; 4]), Ok(1));
    assert_eq!(filters(&frame, &[0, 1, 2, 3], &mut [0; 96], &mut [0; 4]), Ok(1));
}
