// Quads: the order of the four corners over points of every kind, and all classes of a pair.

use super::class_axes::FALLEN;
use super::pairs::{case_of, orders, Pair};
use super::Case;
use crate::random::Random;
use crate::vectors::meshes::SQUARE;

type Points = [(f32, f32); 4];

/// Equal centroid angles, corners on the centroid, least y two and three times, full ties.
/// In the last two the order of the centroid's sums decides on which side of it a corner lies.
const SHAPES: [Points; 16] = [
    SQUARE,
    [(0.0, -5.0), (5.0, 0.0), (0.0, 5.0), (-5.0, 0.0)],
    [(4.0, 0.0), (8.0, 0.0), (-6.0, 1.0), (-6.0, -1.0)],
    [(4.0, 4.0), (8.0, 8.0), (-2.0, -2.0), (-10.0, -10.0)],
    [(0.0, 0.0), (6.0, 0.0), (0.0, 6.0), (2.0, 2.0)],
    [(0.0, 0.0), (5.0, 0.0), (10.0, 0.0), (5.0, 10.0)],
    [(-5.0, -0.0), (-3.0, 0.0), (8.0, 0.0), (0.0, 0.0)],
    [(-5.0, 0.0), (-3.0, -0.0), (8.0, -0.0), (0.0, -0.0)],
    [(0.0, 0.0), (-0.0, -0.0), (10.0, 10.0), (5.0, 10.0)],
    [(-0.0, 10.0), (0.0, 10.0), (3.0, 20.0), (-3.0, 20.0)],
    [(0.0, 0.0), (10.0, 0.0), (4.0, 3.0), (0.0, 10.0)],
    [(0.1, 0.2), (0.3, 0.2), (0.7, 0.9), (0.1, 0.2)],
    [(1e6, 1e6), (-1e6, 1e6), (-1e6, -1e6), (1_048_576.0, -1_048_576.0)],
    [(1_048_575.9, 0.1), (1_048_575.8, 0.1), (1_048_575.9, 0.2), (1_048_576.0, 0.2)],
    [(1_048_576.0, 0.0), (-1_048_576.0, 0.0), (0.03, 0.0), (0.005, 0.0)],
    [(0.0, 1_048_576.0), (0.0, -1_048_576.0), (0.0, 0.03), (0.0, 0.005)],
];

/// The points in all orders: 24 pairs of triangles, shared sides and turns going round.
fn all_orders(points: Points) -> Case {
    let pair = |(i, corners): (usize, [u32; 4])| {
        let pair = Pair { corners, side: i % 3, turn: i / 3 % 3 };
        let classes = pair.classes();
        (pair, classes)
    };
    let pairs: Vec<_> = orders().into_iter().enumerate().map(pair).collect();
    case_of(points, &pairs)
}

/// Points of a small lattice, where all ties are common, zeros of either sign.
fn lattice(random: &mut Random) -> Points {
    [(); 4].map(|()| {
        let mut one = || random.pick(&[-1.0, -0.0, 0.0, 1.0, 2.0]);
        (one(), one())
    })
}

/// A triangle's three classes, by number.
fn triple(number: u32) -> [u32; 3] {
    [number / 9, number / 3 % 3, number % 3]
}

/// All classes of one triangle beside some of the other's: with one Diagonal in each place,
/// with two and three, and with a Spurious one.
fn all_classes(cases: &mut Vec<Case>) {
    let seconds = [[2, 1, 1], [1, 2, 1], [1, 1, 2], [2, 2, 1], [2, 2, 2], [2, 0, 1]];
    for (k, second) in seconds.into_iter().enumerate() {
        let pair = |number: u32| {
            let [a, b, c] = triple(number);
            let [d, e, f] = second;
            let pair = Pair { corners: [0, 1, 2, 3], side: k % 3, turn: (3 - k % 3) % 3 };
            (pair, [a, b, c, d, e, f])
        };
        let pairs: Vec<_> = (0..27).map(pair).collect();
        cases.push(case_of(SQUARE, &pairs));
    }
}

pub fn add(cases: &mut Vec<Case>) {
    cases.extend(SHAPES.into_iter().chain(FALLEN).map(all_orders));
    let mut random = Random::new(5);
    for _ in 0..3 {
        cases.push(all_orders(lattice(&mut random)));
    }
    all_classes(cases);
}
