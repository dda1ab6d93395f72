// The original's walk gives what document 01's third demand asks for, and a wrong one is told.

use oracle::walked::walked;

#[test]
fn walk_and_demand_agree() {
    let found = walked(plain::label, 2_100, 17);
    assert!(found.first.is_none(), "{:?}", found.first);
}

#[test]
fn a_wrong_walk_is_told() {
    let one_at_most = |quads: &[[u32; 4]], least_quads, least_corners| {
        plain::label(quads, least_quads, least_corners).into_iter().take(1).collect()
    };
    assert!(walked(one_at_most, 700, 1).first.is_some());
}
