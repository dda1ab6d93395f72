// What the unchanged Rust does with the smallest frames that document 01's table refuses: the rows
// of docs/DIFFERENCES.md.

use frame::{Frame, NONE};
use oracle::judge::{judge, Refusal};
use oracle::words;
use std::panic::catch_unwind;

/// Corners at (0,0), both axes at angle 0 and without spreads, and triangles without twins.
fn frame(corners: usize, triangles: &[u32]) -> Frame {
    Frame {
        x: vec![0.0; corners],
        y: vec![0.0; corners],
        angles: vec![0.0; 2 * corners],
        marks: vec![0; 2 * corners],
        spreads: vec![0.0; 2 * corners],
        triangles: triangles.to_vec(),
        twins: vec![NONE; triangles.len()],
        ..Frame::default()
    }
}

/// The components that the Rust finds, or nothing where it panics.
fn found(frame: &Frame) -> Option<usize> {
    catch_unwind(|| plain::run(frame).components.len()).ok()
}

fn refused(row: u32, place: u32) -> Option<Refusal> {
    Some(Refusal::at(row, place))
}

#[test]
fn what_the_rust_answers_and_the_table_refuses() {
    let mut nan_tolerance = frame(0, &[]);
    nan_tolerance.params.tolerance = f32::NAN;
    let mut nan_position = frame(1, &[]);
    nan_position.x[0] = f32::NAN;
    let with_twin = |twin: u32| {
        let mut wrong = frame(3, &[0, 1, 2]);
        wrong.twins[0] = twin;
        wrong
    };
    let mut no_rule = frame(0, &[]);
    no_rule.params.spread_rule = 0;
    let answered = [
        (frame(4_097, &[]), refused(2, 0)),
        (nan_tolerance, refused(3, 0)),
        (no_rule, refused(18, 0)),
        (nan_position, refused(4, 0)),
        (frame(1, &[0, 0, 0]), refused(6, 0)),
        (with_twin(3), Some(Refusal { row: 7, place: 0, beside: 3 })),
        (with_twin(1), Some(Refusal { row: 11, place: 0, beside: 1 })),
        (with_twin(0), Some(Refusal { row: 12, place: 0, beside: 0 })),
    ];
    for (frame, refusal) in answered {
        assert_eq!((found(&frame), judge(&frame)), (Some(0), refusal));
    }
}

/// By rule 2, which the Rust has not, a missing spread does not inform.
#[test]
fn a_missing_spread() {
    let rust = frame(1, &[]);
    let mut second = rust.clone();
    second.params.spread_rule = 2;
    let informative = |frame: &Frame| words::axes(frame)[0].informative;
    assert_eq!((plain::run(&rust).axes[0].informative, informative(&rust)), ([true; 2], [true; 2]));
    assert_eq!((judge(&second), informative(&second)), (None, [false; 2]));
}

#[test]
fn where_the_rust_panics() {
    let panics = [(frame(1, &[0]), refused(1, 0)), (frame(0, &[0, 0, 0]), refused(5, 0))];
    for (frame, refusal) in panics {
        assert_eq!((found(&frame), judge(&frame)), (None, refusal));
    }
}
