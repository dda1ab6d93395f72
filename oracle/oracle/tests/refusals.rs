// A damaged frame for each row, with its place; by hand first, then by the generator.

use frame::{Frame, NONE};
use oracle::generate::{damage::damage, maker};
use oracle::judge::judge;
use oracle::random::Random;
use std::collections::BTreeSet;

/// Two triangles that share a side.
fn sound() -> Frame {
    let mut frame = Frame::default();
    for (x, y) in [(0.0, 0.0), (10.0, 0.0), (10.0, 10.0), (0.0, 10.0)] {
        frame.add_corner(x, y, [0.0, 1.5], [None, Some(f32::NAN)]);
    }
    frame.add_triangle([0, 1, 2], [NONE, NONE, 3]);
    frame.add_triangle([0, 2, 3], [2, NONE, NONE]);
    frame
}

/// What is answered after a change.
fn after(change: impl Fn(&mut Frame)) -> Option<(u32, u32)> {
    let mut frame = sound();
    change(&mut frame);
    judge(&frame).map(|r| (r.row, r.place))
}

#[test]
fn accepted() {
    assert_eq!(after(|_| {}), None);
    assert_eq!(after(|f| f.params.ratio = f32::NEG_INFINITY), None);
    assert_eq!(after(|f| f.x[3] = -1_048_576.0), None);
    assert_eq!(after(|f| f.angles[0] = f32::NAN), None);
    assert_eq!(after(|f| *f = Frame::default()), None);
}

#[test]
fn rows_1_to_3() {
    assert_eq!(after(|f| f.y.truncate(3)), Some((1, 0)));
    assert_eq!(after(|f| f.angles.push(0.0)), Some((1, 0)));
    assert_eq!(after(|f| f.marks.truncate(1)), Some((1, 0)));
    assert_eq!(after(|f| f.twins.truncate(3)), Some((1, 0)));
    let five = |f: &mut Frame| {
        f.triangles.truncate(5);
        f.twins.truncate(5);
    };
    assert_eq!(after(five), Some((1, 0)));
    let crowd = |f: &mut Frame, n: usize| {
        while f.corners() < n {
            f.add_corner(0.0, 0.0, [0.0; 2], [None; 2]);
        }
    };
    assert_eq!(after(|f| crowd(f, 4_096)), None);
    assert_eq!(after(|f| crowd(f, 4_097)), Some((2, 0)));
    assert_eq!(after(|f| f.params.tolerance = f32::NAN), Some((3, 0)));
    assert_eq!(after(|f| f.params.spread_limit = -f32::NAN), Some((3, 4)));
}

/// Of the two spread rules one is there, behind row 3 and before row 4.
#[test]
fn row_18() {
    for rule in [0, 3, 257, 258, 1 << 31, u32::MAX] {
        assert_eq!(after(|f| f.params.spread_rule = rule), Some((18, 0)));
    }
    assert_eq!(after(|f| f.params.spread_rule = 2), None);
    let with = |change: fn(&mut Frame)| {
        after(|f| {
            f.params.spread_rule = 3;
            change(f);
        })
    };
    assert_eq!(with(|f| f.y.truncate(3)), Some((1, 0)));
    assert_eq!(with(|f| f.params.tolerance = f32::NAN), Some((3, 0)));
    assert_eq!(with(|f| f.params.spread_limit = f32::NAN), Some((3, 4)));
    assert_eq!(with(|f| f.x[0] = f32::NAN), Some((18, 0)));
    assert_eq!(with(|f| f.triangles[5] = 4), Some((18, 0)));
    assert_eq!(with(|f| f.triangles[4] = 0), Some((18, 0)));
    assert_eq!(with(|f| f.twins[4] = 6), Some((18, 0)));
}

#[test]
fn rows_4_to_6() {
    assert_eq!(after(|f| f.y[2] = f32::INFINITY), Some((4, 2)));
    assert_eq!(after(|f| f.x[3] = 1_048_576.06), None);
    assert_eq!(after(|f| f.x[3] = f32::from_bits(0x4980_0001)), Some((4, 3)));
    assert_eq!(after(|f| f.triangles[5] = 4), Some((5, 5)));
    assert_eq!(after(|f| f.triangles[4] = 0), Some((6, 1)));
}

/// What is answered with these twins of the half-edges.
fn with_twins(words: &[(usize, u32)]) -> [u32; 3] {
    let mut frame = sound();
    words.iter().for_each(|&(e, word)| frame.twins[e] = word);
    judge(&frame).map(|r| [r.row, r.place, r.beside]).unwrap()
}

#[test]
fn rows_7_11_and_12() {
    assert_eq!(with_twins(&[(4, 6)]), [7, 4, 6]);
    assert_eq!(with_twins(&[(2, 9)]), [7, 2, 9]);
    assert_eq!(with_twins(&[(2, NONE - 1)]), [7, 2, NONE - 1]);
    assert_eq!(with_twins(&[(2, NONE)]), [11, 3, 2]);
    assert_eq!(with_twins(&[(3, 6)]), [11, 2, 3]);
    assert_eq!(with_twins(&[(5, 0)]), [11, 5, 0]);
    assert_eq!(with_twins(&[(5, 5)]), [12, 5, 5]);
    assert_eq!(with_twins(&[(0, 1), (1, 0)]), [12, 0, 1]);
}

#[test]
fn the_first_half_edge_before_the_lower_row() {
    assert_eq!(with_twins(&[(0, 0), (1, 6)]), [12, 0, 0]);
    assert_eq!(with_twins(&[(0, 2), (1, 6)]), [11, 0, 2]);
    assert_eq!(with_twins(&[(0, 0), (1, 0)]), [12, 0, 0]);
}

#[test]
fn generated() {
    let make = maker("warped").unwrap();
    let mut rows = BTreeSet::new();
    for i in 0..800 {
        let mut random = Random::part(7, i);
        let mut frame = make(20, &mut random);
        assert_eq!(judge(&frame), None);
        let row = [1, 2, 3, 18, 4, 5, 6, 7][i as usize % 8];
        let expected = damage(row, &mut frame, &mut random);
        assert_eq!(judge(&frame), Some(expected), "frame {i}");
        rows.insert(expected.row);
    }
    assert!(rows.into_iter().eq([1, 2, 3, 4, 5, 6, 7, 11, 12, 18]));
}
