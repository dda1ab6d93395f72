// Document 01's examples of the filters: incidence of 8 and 10, and the middle of 1, 1, 2, 2.

use frame::Frame;

fn frame(points: &[(f32, f32)]) -> Frame {
    let mut frame = Frame::default();
    for &(x, y) in points {
        frame.add_corner(x, y, [0.0, 0.0], [None, None]);
    }
    frame.params.ratio = f32::INFINITY;
    frame.params.least = 0.0;
    frame.params.greatest = f32::INFINITY;
    frame
}

/// `count` quads that all have corners 0 and 1 in common.
fn bundle(count: u32) -> Vec<[u32; 4]> {
    (0..count).map(|q| [0, 2 + 2 * q, 1, 3 + 2 * q]).collect()
}

#[test]
fn a_corner_in_four_quads_is_legal_and_in_five_is_not() {
    let frame = frame(&[(0.0, 0.0); 12]);
    let four = bundle(4);
    assert_eq!(plain::filter(&four, &frame)[0], four);
    assert!(plain::filter(&bundle(5), &frame)[0].is_empty());
}

#[test]
fn one_illegal_corner_is_not_enough() {
    let quads: Vec<[u32; 4]> = (0..5).map(|q| [0, 1 + 3 * q, 2 + 3 * q, 3 + 3 * q]).collect();
    let frame = frame(&[(0.0, 0.0); 16]);
    assert_eq!(plain::filter(&quads, &frame)[0], quads);
}

#[test]
fn the_middle_of_an_even_list_is_the_upper_one() {
    let mut frame = frame(&[(0.0, 0.0), (1.0, 0.0), (1.0, 2.0), (0.0, 2.0)]);
    let quad = [[0, 1, 2, 3]];
    frame.params.least = 0.5;
    assert_eq!(plain::filter(&quad, &frame)[2], quad);
    frame.params.least = 0.50001;
    assert!(plain::filter(&quad, &frame)[2].is_empty());
    frame.params.least = 0.0;
    frame.params.greatest = 1.0;
    assert_eq!(plain::filter(&quad, &frame)[2], quad);
}

#[test]
fn a_median_of_zero_keeps_the_quad() {
    let mut frame = frame(&[(5.0, 5.0); 4]);
    frame.params.least = f32::INFINITY;
    frame.params.greatest = 0.0;
    assert_eq!(plain::filter(&[[0, 1, 2, 3]], &frame)[2].len(), 1);
}
