// The vectors hold to the statements they are drawn from.

use oracle::vectors::{angles, distances, roots};

/// The root lies where no other float is nearer: its square root is between the squares of
/// the halfway points to its neighbours. Halfway points of floats, and their squares, are
/// exact in double precision.
fn is_root(x: f32, y: f32) -> bool {
    let halfway = |a: f32, b: f32| (a as f64 + b as f64) / 2.0;
    let below = halfway(f32::from_bits(y.to_bits() - 1), y);
    let above = halfway(y, f32::from_bits(y.to_bits() + 1));
    below * below <= x as f64 && x as f64 <= above * above
}

#[test]
fn roots_are_nearest() {
    let list = roots();
    assert!(list.len() >= 5_000);
    let mut refused = 0;
    for bits in list {
        let x = f32::from_bits(bits);
        match rules::root_or_refused(x) {
            Some(y) if x == 0.0 => assert_eq!(y.to_bits(), bits),
            Some(y) => assert!(is_root(x, y), "{bits:08X}"),
            None => refused += 1,
        }
    }
    assert!(refused > 20);
}

#[test]
fn angles_are_near_the_true_ones() {
    let [first, second] = angles();
    assert!(first.len() + second.len() >= 4_000);
    for pair in first.into_iter().chain(second) {
        let [dx, dy] = pair.map(f32::from_bits);
        if let Some(angle) = rules::angle_or_refused(dx, dy) {
            let gap = (angle as f64 - (dy as f64).atan2(dx as f64)).abs();
            assert!(gap < 1e-6, "{:08X} {:08X}", pair[0], pair[1]);
        }
    }
}

#[test]
fn distances_are_in_their_range() {
    let [first, second] = distances();
    assert!(first.len() + second.len() >= 4_000);
    let mut minus_zero = false;
    for pair in first.into_iter().chain(second) {
        let [angle, axis] = pair.map(f32::from_bits);
        if let Some(d) = rules::distance_or_none(angle, axis) {
            assert!((0.0..=rules::HALF_PI).contains(&d), "{:08X} {:08X}", pair[0], pair[1]);
            minus_zero |= d.to_bits() == 0x8000_0000;
        }
    }
    assert!(minus_zero);
}
