// Each row of the refusal table from a call that gives it: its number, its place, its words, and what it leaves of the lists. The rows of a
// wrong twin are in twin_faults.rs, that of the spread rule in spread_rules.rs.

use ngeunsadok::*;

const X: [f32; 4] = [0.0, 10.0, 10.0, 0.0];
const Y: [f32; 4] = [0.0, 0.0, 10.0, 10.0];
const CORNERS: Positions = Positions { x: &X, y: &Y };
const SQUARE: [Quad; 1] = [[0, 1, 2, 3]];
const PARAMS: FilterParams = FilterParams { ratio: 1.5, least: 0.5, greatest: 2.0 };
const REST: u32 = 77;

/// The refusal is that row at that place, with nothing beside it, and its words hold these.
fn refused<T>(answer: Result<T, Refusal>, number: u32, place: u32, words: &str) {
    let refusal = answer.err().expect("a refusal");
    assert_eq!((refusal.number(), refusal.place(), refusal.beside()), (number, place, None));
    assert!(refusal.to_string().contains(words), "{refusal}");
}

/// A call of the filters that is refused and leaves the workspace, of `words` words, and the kept list untouched.
fn filters(corners: Positions, quads: &[Quad], params: FilterParams, words: usize) -> Result<usize, Refusal> {
    let (mut work, mut kept) = (vec![REST; words], [[REST; 4]]);
    let answer = filter_quads(corners, quads, params, &mut work, &mut kept);
    assert!(work.iter().all(|&word| word == REST) && kept == [[REST; 4]]);
    answer
}

fn merged(triangles: &[u32], twins: &[u32], classes: &[u32], quads: &mut [Quad]) -> Result<usize, Refusal> {
    merge_triangle_pairs(CORNERS, Mesh { triangles, twins, classes }, quads)
}

#[test]
fn rows_of_the_filters() {
    let wide = quad_work(2, 4);
    refused(filters(Positions { x: &X, y: &Y[..3] }, &SQUARE, PARAMS, wide), 1, 0, "differ in length");
    let (x, y) = (vec![0.0; 4097], vec![0.0; 4097]);
    refused(filters(Positions { x: &x, y: &y }, &SQUARE, PARAMS, wide), 2, 0, "4,096 corners");
    refused(
        filters(CORNERS, &SQUARE, FilterParams { greatest: f32::NAN, ..PARAMS }, wide),
        3,
        3,
        "greatest relative length is NaN",
    );
    let far = [0.0, 10.0, 2_000_000.0, 0.0];
    refused(filters(Positions { x: &far, y: &Y }, &SQUARE, PARAMS, wide), 4, 2, "position of corner 2");
    refused(filters(CORNERS, &[[0, 1, 2, 3], [0, 4, 1, 2]], PARAMS, wide), 5, 5, "position 5");
    refused(filters(CORNERS, &[[0, 1, 2, 3], [0, 1, 1, 2]], PARAMS, wide), 6, 1, "quad 1 names a corner twice");
    refused(filters(CORNERS, &SQUARE, PARAMS, 95), 8, 96, "words wanted: 96");
}

#[test]
fn a_list_of_kept_quads_without_room() {
    let mut work = vec![REST; quad_work(1, 4)];
    refused(filter_quads(CORNERS, &SQUARE, PARAMS, &mut work, &mut []), 9, 1, "records wanted: 1");
    assert!(work.iter().all(|&word| word == 0));
}

#[test]
fn rows_of_single_numbers() {
    refused(root(-1.0), 4, 0, "the single number given");
    refused(angle(f32::NAN, 0.0), 4, 0, "the single number given");
    let axis = Axis { angle: 0.0, spread: None };
    refused(axis_cache([axis, axis], f32::NAN, SpreadRule::default()), 3, 4, "spread limit is NaN");
}

#[test]
fn rows_of_the_classes() {
    let axes = Axes { angles: &[0.0; 8], marks: &[0; 8], spreads: &[0.0; 8] };
    let params = EdgeParams { tolerance: f32::NAN, ..EdgeParams::default() };
    let (mut classes, mut fits) = ([REST; 6], [77.0; 6]);
    let (whole, cut) = ([0, 1, 2, 0, 2, 3], [0, 1, 2, 0, 2]);
    refused(classify_all_edges(CORNERS, axes, &whole, params, &mut classes, &mut fits), 3, 0, "tolerance is NaN");
    refused(classify_all_edges(CORNERS, axes, &whole, params, &mut classes, &mut fits[..5]), 1, 0, "differ in length");
    refused(classify_all_edges(CORNERS, axes, &cut, params, &mut classes[..5], &mut fits[..5]), 1, 0, "not whole");
    assert_eq!((classes, fits), ([REST; 6], [77.0; 6]));
}

#[test]
fn rows_of_the_quads() {
    let triangles = [0, 1, 2, 0, 2, 3];
    let twins = [NO_TWIN, NO_TWIN, 3, 2, NO_TWIN, NO_TWIN];
    let classes = [1, 1, 2, 2, 1, 1];
    let mut quads = [[REST; 4]];
    refused(merged(&triangles, &twins, &[1, 1, 2, 3, 1, 1], &mut quads), 5, 3, "a class above 2");
    assert_eq!(quads, [[REST; 4]]);
    refused(merged(&triangles, &twins, &classes, &mut []), 9, 1, "records wanted: 1");
}

#[test]
fn lists_of_the_labelling_without_room() {
    let mut work = vec![REST; quad_work(1, 4)];
    let params = LabelParams { quads: 1, corners: 4 };
    let (mut components, mut entries) = ([Component::default()], [Entry { u: REST, v: REST, corner: REST }; 3]);
    let mut call = |components: &mut [Component]| label_components(&SQUARE, 4, params, &mut work, components, &mut entries);
    refused(call(&mut []), 9, 1, "records wanted: 1");
    refused(call(&mut components), 10, 4, "entries wanted: 4");
    assert_eq!(components, [Component::default()]);
    assert!(entries.iter().all(|entry| entry.u == REST) && work.iter().all(|&word| word == 0));
}
