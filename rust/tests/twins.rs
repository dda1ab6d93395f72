// Twins made from triangles: pairs where there is one, none where there is not, and never what the calls refuse.

use ngeunsadok::*;

#[test]
fn pairs_and_rims() {
    assert_eq!(twins_of(&[0, 1, 2, 0, 2, 3]), [NO_TWIN, NO_TWIN, 3, 2, NO_TWIN, NO_TWIN]);
    assert_eq!(twins_of(&[]), []);
    // the two faces of one triangle
    assert_eq!(twins_of(&[0, 1, 2, 2, 1, 0]), [4, 3, 5, 1, 0, 2]);
}

#[test]
fn sides_without_one_other() {
    // both run from 0 to 1
    assert_eq!(twins_of(&[0, 1, 2, 0, 1, 3]), [NO_TWIN; 6]);
    // three triangles on the side of 0 and 1
    assert_eq!(twins_of(&[0, 1, 2, 1, 0, 3, 1, 0, 4]), [NO_TWIN; 9]);
    // a fifth element that is no triangle's
    assert_eq!(twins_of(&[0, 1, 2, 0, 2]), [NO_TWIN; 5]);
}

/// Over corners drawn at random, so with many sides that are met by three, the calls refuse none of these twins.
#[test]
fn never_refused() {
    let mut state = 12_345u32;
    let mut drawn = |below: u32| {
        state = state.wrapping_mul(1_664_525).wrapping_add(1_013_904_223);
        (state >> 16) % below
    };
    for _ in 0..200 {
        let triangle = |drawn: &mut dyn FnMut(u32) -> u32| {
            let first = drawn(8);
            let second = (first + 1 + drawn(7)) % 8;
            let third = (0..8).filter(|&k| k != first && k != second).nth(drawn(6) as usize).expect("a third");
            [first, second, third]
        };
        let triangles: Vec<u32> = (0..6).flat_map(|_| triangle(&mut drawn)).collect();
        let twins = twins_of(&triangles);
        let x = [0.0, 1.0, 2.0, 3.0, 4.0, 5.0, 6.0, 7.0];
        let mesh = Mesh { triangles: &triangles, twins: &twins, classes: &[0; 18] };
        assert_eq!(merge_triangle_pairs(Positions { x: &x, y: &x }, mesh, &mut []), Ok(0));
    }
}
