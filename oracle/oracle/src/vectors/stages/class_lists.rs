// Class lists that no frame need produce.

use crate::random::Random;
use frame::{Frame, NONE};

/// Each class for itself, Spurious, Grid and Diagonal as often as their weights say.
fn weighted(count: usize, weights: [usize; 3], random: &mut Random) -> Vec<u32> {
    let total = weights.iter().sum();
    let mut class = || {
        let drawn = random.below(total);
        (drawn >= weights[0]) as u32 + (drawn >= weights[0] + weights[1]) as u32
    };
    (0..count).map(|_| class()).collect()
}

/// Grid everywhere, but twins drawn to be Diagonal while both their triangles have none.
fn matched(frame: &Frame, random: &mut Random) -> Vec<u32> {
    let mut classes = vec![1; frame.half_edges()];
    let mut order: Vec<usize> = (0..frame.half_edges()).collect();
    random.shuffle(&mut order);
    for e in order {
        let twin = frame.twins[e];
        let free = |e: usize| !classes[e - e % 3..e - e % 3 + 3].contains(&2);
        if twin != NONE && free(e) && free(twin as usize) {
            classes[e] = 2;
            classes[twin as usize] = 2;
        }
    }
    classes
}

/// Matched, with some words changed afterwards: twins that differ, second Diagonals.
fn spoilt(frame: &Frame, random: &mut Random) -> Vec<u32> {
    let mut classes = matched(frame, random);
    for _ in 0..1 + frame.half_edges() / 12 {
        classes[random.below(frame.half_edges())] = random.below(3) as u32;
    }
    classes
}

/// The class list with this number for a frame that has triangles.
pub fn class_list(number: usize, frame: &Frame, random: &mut Random) -> Vec<u32> {
    let count = frame.half_edges();
    match number % 12 {
        0..=2 => matched(frame, random),
        3..=5 => spoilt(frame, random),
        6 => weighted(count, [1, 1, 1], random),
        7 => weighted(count, [1, 12, 7], random),
        8 => weighted(count, [0, 2, 1], random),
        9 => weighted(count, [0, 1, 3], random),
        10 => vec![2; count],
        _ => vec![1; count],
    }
}
