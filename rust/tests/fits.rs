// The fits that the call of the classes writes: the greater of a Grid side's two distances, the start's of two that are equal, -1 for every
// other half-edge; held by their bits, first on a square, then on a mesh of as many half-edges as there may be. A refusal leaves both lists
// as they were.

mod full;

use full::Full;
use ngeunsadok::*;
use std::f32::consts::{FRAC_PI_2 as UP, FRAC_PI_4, PI};

/// A square of four corners in two triangles. Half-edges 0 and 4 run along slot 0, from corner 0 to 1 and from 2 to 3; half-edges 1 and 5
/// along slot 1, from 1 to 2 and from 3 to 0; 2 and 3 are the diagonal.
const CORNERS: Positions = Positions { x: &[0.0, 10.0, 10.0, 0.0], y: &[0.0, 0.0, 10.0, 10.0] };
const TRIANGLES: [u32; 6] = [0, 1, 2, 0, 2, 3];
const AXES: Axes = Axes { angles: &ALONG, marks: &[0; 8], spreads: &[0.0; 8] };
const ALONG: [f32; 8] = [0.0, UP, 0.0, UP, 0.0, UP, 0.0, UP];
const PARAMS: EdgeParams = EdgeParams { tolerance: 0.25, limit: 1.0, rule: SpreadRule::MissingInformative };

/// The fit of a half-edge that is not Grid.
const NO: f32 = -1.0;

/// What stands in the two lists before a call.
const REST: (u32, f32) = (77, 77.0);

/// The classes of triangles, and the bits of their fits.
fn classified(corners: Positions, axes: Axes, triangles: &[u32], params: EdgeParams) -> (Vec<u32>, Vec<u32>) {
    let (mut classes, mut fits) = (vec![REST.0; triangles.len()], vec![REST.1; triangles.len()]);
    assert_eq!(classify_all_edges(corners, axes, triangles, params, &mut classes, &mut fits), Ok(()));
    (classes, bits(&fits))
}

/// The square's, with these angles and by this tolerance.
fn square(angles: [f32; 8], tolerance: f32) -> (Vec<u32>, Vec<u32>) {
    classified(CORNERS, Axes { angles: &angles, ..AXES }, &TRIANGLES, EdgeParams { tolerance, ..PARAMS })
}

fn bits(fits: &[f32]) -> Vec<u32> {
    fits.iter().map(|fit| fit.to_bits()).collect()
}

/// The next float above one that is not below 0.
fn next(fit: f32) -> f32 {
    f32::from_bits(fit.to_bits() + 1)
}

/// The square's classes are these, and its fits have the bits of these.
fn holds((classes, fits): (Vec<u32>, Vec<u32>), expected: ([u32; 6], [f32; 6])) {
    assert_eq!(classes, expected.0);
    assert_eq!(fits, bits(&expected.1), "{expected:?}");
}

/// Half-edge 5 lies a half turn below its axes, a distance of -0.
#[test]
fn the_square() {
    assert_eq!(axis_distance(-UP, UP).map(f32::to_bits), Some(0x8000_0000));
    let (classes, fits) = square(ALONG, 0.25);
    assert_eq!(classes, [1, 1, 2, 2, 1, 1]);
    assert_eq!(fits, [0, 0, 0xBF80_0000, 0xBF80_0000, 0, 0x8000_0000]);
}

/// The greater distance is at the start of half-edge 0 and at the ends of 4 and 5.
const TURNED: [f32; 8] = [0.125, UP + 0.0625, 0.03125, UP, 0.0, UP, 0.1875, UP];

#[test]
fn the_greater_of_two() {
    holds(square(TURNED, 0.25), ([1, 1, 2, 2, 1, 1], [0.125, 0.0, NO, NO, 0.1875, 0.0625]));
    // the same turns the other way round
    let turned = [-0.125, UP - 0.0625, -0.03125, UP, 0.0, UP, -0.1875, UP];
    holds(square(turned, 0.25), ([1, 1, 2, 2, 1, 1], [0.125, 0.0, NO, NO, 0.1875, 0.0625]));
    // at either end of half-edge 0 the greater one, then equal ones
    for (start, end) in [(0.125, 0.03125), (0.03125, 0.125), (0.125, 0.125), (0.125, -0.125)] {
        let turned = [start, UP, end, UP, 0.0, UP, 0.0, UP];
        holds(square(turned, 0.25), ([1, 1, 2, 2, 1, 1], [0.125, 0.0, NO, NO, 0.0, -0.0]));
    }
}

/// Of -0 and 0 neither is greater.
#[test]
fn the_starts_zero() {
    for (start, end, fit) in [(PI, 0.0, -0.0), (0.0, PI, 0.0), (PI, PI, -0.0), (0.0, 0.0, 0.0)] {
        let turned = [start, UP, end, UP, 0.0, UP, 0.0, UP];
        holds(square(turned, 0.25), ([1, 1, 2, 2, 1, 1], [fit, 0.0, NO, NO, 0.0, -0.0]));
    }
    // half-edge 5, from corner 3 to 0
    for (start, end, fit) in [(UP, -UP, -0.0), (-UP, UP, 0.0), (-UP, -UP, 0.0)] {
        let turned = [0.0, end, 0.0, UP, 0.0, UP, 0.0, start];
        holds(square(turned, 0.25), ([1, 1, 2, 2, 1, 1], [0.0, 0.0, NO, NO, 0.0, fit]));
    }
}

/// Slot 0 stands a float farther from half-edge 0 than slot 1 does, and the nearer one's distance counts; a NaN axis counts for nothing.
#[test]
fn the_nearer_slot_of_a_corner() {
    let nearer = [-next(0.125), -0.125, 0.0, UP, 0.0, UP, 0.0, UP];
    assert_eq!(square(nearer, 0.25).1[0], 0.125f32.to_bits());
    let unknown = [f32::NAN, 0.0625, 0.0, UP, 0.0, UP, 0.0, UP];
    assert_eq!(square(unknown, 0.25).1[0], 0.0625f32.to_bits());
    let nothing = [f32::NAN, f32::INFINITY, 0.0, UP, 0.0, UP, 0.0, UP];
    holds(square(nothing, f32::INFINITY), ([0, 1, 0, 0, 1, 0], [NO, 0.0, NO, NO, 0.0, NO]));
}

#[test]
fn a_fit_is_the_greatest_tolerance_that_is_too_small() {
    holds(square(TURNED, 0.125), ([0, 1, 0, 0, 0, 1], [NO, 0.0, NO, NO, NO, 0.0625]));
    holds(square(TURNED, next(0.125)), ([1, 1, 2, 0, 0, 1], [0.125, 0.0, NO, NO, NO, 0.0625]));
    for none in [0.0, -0.0, NO, f32::NEG_INFINITY] {
        holds(square(TURNED, none), ([0; 6], [NO; 6]));
    }
    holds(square(TURNED, f32::from_bits(1)), ([0, 1, 0, 0, 0, 0], [NO, 0.0, NO, NO, NO, NO]));
}

/// Then every side with a match at both ends is Grid, and what was a diagonal has a fit. Its two half-edges' fits are a float apart: each
/// half-edge has an angle of its own.
#[test]
fn a_tolerance_above_every_distance() {
    for above in [next(UP), f32::MAX, f32::INFINITY] {
        holds(square(ALONG, above), ([1; 6], [0.0, 0.0, next(FRAC_PI_4), FRAC_PI_4, 0.0, -0.0]));
    }
}

/// The distance from the nearest axis of a corner, both of which count.
fn nearest(axes: Axes, corner: usize, angle: f32) -> f32 {
    let [first, second] = [0, 1].map(|slot| axis_distance(angle, axes.angles[2 * corner + slot]).expect("a distance"));
    if second < first {
        second
    } else {
        first
    }
}

/// The fits of triangles by the package's own angle and distance.
fn by_numbers(corners: Positions, axes: Axes, triangles: &[u32], tolerance: f32) -> Vec<f32> {
    let Positions { x, y } = corners;
    let fit = |e: usize| {
        let ends = [e, if e % 3 == 2 { e - 2 } else { e + 1 }].map(|e| triangles[e] as usize);
        let side = angle(x[ends[1]] - x[ends[0]], y[ends[1]] - y[ends[0]]).expect("an angle");
        let [start, end] = ends.map(|corner| nearest(axes, corner, side));
        match (start < tolerance && end < tolerance, end > start) {
            (false, _) => NO,
            (true, true) => end,
            (true, false) => start,
        }
    };
    (0..triangles.len()).map(fit).collect()
}

/// Every axis of the mesh is turned by up to a sixteenth of a radian, so that the distances at a side's two ends differ.
#[test]
fn a_full_mesh() {
    let full = Full::of(0);
    let off = |slot: usize| ((slot as u32).wrapping_mul(2_654_435_761) >> 20) as f32 / 32_768.0 - 0.0625;
    let angles: Vec<f32> = full.axes().angles.iter().enumerate().map(|(slot, angle)| angle + off(slot)).collect();
    let (corners, axes, triangles) = (full.corners(), Axes { angles: &angles, ..full.axes() }, &full.triangles);
    let call = |tolerance| classified(corners, axes, triangles, EdgeParams { tolerance, ..PARAMS });
    for tolerance in [0.0, 0.03125, 0.25, 1.0, f32::INFINITY] {
        let ((classes, fits), expected) = (call(tolerance), by_numbers(corners, axes, triangles, tolerance));
        assert!(fits == bits(&expected), "{tolerance}");
        assert!(classes.iter().zip(expected).all(|(&class, fit)| (class == 1) == (fit != NO)), "{tolerance}");
    }
    // the greatest of all fits as tolerance leaves out every side that has it, and the next float none
    let (classes, fits) = call(0.25);
    let greatest = fits.iter().map(|&fit| f32::from_bits(fit)).fold(NO, f32::max);
    let grid = |classes: Vec<u32>| classes.into_iter().filter(|&class| class == 1).count();
    let (all, without) = (grid(classes), fits.iter().filter(|&&fit| fit == greatest.to_bits()).count());
    assert!(all > 15_000 && without > 0, "{all} {without}");
    assert_eq!(grid(call(greatest).0), all - without);
    assert_eq!(call(next(greatest)).1, fits);
}

/// The refusal of a call into lists of so many elements, which it leaves as they were.
fn refused(corners: Positions, axes: Axes, triangles: &[u32], params: EdgeParams, lengths: [usize; 2]) -> (u32, u32) {
    let (mut classes, mut fits) = (vec![REST.0; lengths[0]], vec![REST.1; lengths[1]]);
    let answer = classify_all_edges(corners, axes, triangles, params, &mut classes, &mut fits);
    assert!(classes.iter().all(|&class| class == REST.0) && fits.iter().all(|&fit| fit == REST.1));
    let refusal = answer.expect_err("a refusal");
    (refusal.number(), refusal.place())
}

/// Before every other row, whichever of the lists is short or long.
#[test]
fn lists_of_other_lengths() {
    let nan = EdgeParams { tolerance: f32::NAN, ..PARAMS };
    for lengths in [[6, 5], [6, 7], [6, 0], [6, 3], [6, 12], [5, 6], [7, 6], [5, 5], [5, 7], [0, 6]] {
        assert_eq!(refused(CORNERS, AXES, &TRIANGLES, PARAMS, lengths), (1, 0), "{lengths:?}");
        assert_eq!(refused(CORNERS, AXES, &[0, 0, 9, 0, 2, 3], nan, lengths), (1, 0), "{lengths:?}");
    }
    assert_eq!(refused(CORNERS, AXES, &[], PARAMS, [0, 1]), (1, 0));
    let full = Full::of(0);
    for fits in [MOST_HALF_EDGES - 1, MOST_HALF_EDGES + 1] {
        assert_eq!(refused(full.corners(), full.axes(), &full.triangles, PARAMS, [MOST_HALF_EDGES, fits]), (1, 0));
    }
}

#[test]
fn the_other_rows() {
    let at = |corners, triangles: &[u32], params| refused(corners, AXES, triangles, params, [triangles.len(); 2]);
    assert_eq!(at(Positions { y: &[0.0; 3], ..CORNERS }, &TRIANGLES, PARAMS), (1, 0));
    assert_eq!(at(CORNERS, &TRIANGLES[..5], PARAMS), (1, 0));
    assert_eq!(at(CORNERS, &[0; MOST_HALF_EDGES + 3], PARAMS), (2, 0));
    assert_eq!(at(CORNERS, &TRIANGLES, EdgeParams { tolerance: f32::NAN, ..PARAMS }), (3, 0));
    assert_eq!(at(CORNERS, &TRIANGLES, EdgeParams { limit: f32::NAN, ..PARAMS }), (3, 4));
    assert_eq!(at(Positions { x: &[0.0, 10.0, 10.0, f32::NAN], ..CORNERS }, &TRIANGLES, PARAMS), (4, 3));
    assert_eq!(at(CORNERS, &[0, 1, 2, 0, 2, 4], PARAMS), (5, 5));
    assert_eq!(at(CORNERS, &[0, 1, 2, 0, 2, 2], PARAMS), (6, 1));
}
