// What the calls answer: the numbers and the examples of labelling in the customer's paper (document 01), and its square from triangles to
// entries.

use ngeunsadok::*;

/// A square of four corners in two triangles.
const X: [f32; 4] = [0.0, 10.0, 10.0, 0.0];
const Y: [f32; 4] = [0.0, 0.0, 10.0, 10.0];
const TRIANGLES: [u32; 6] = [0, 1, 2, 0, 2, 3];
const TWINS: [u32; 6] = [NO_TWIN, NO_TWIN, 3, 2, NO_TWIN, NO_TWIN];
const CORNERS: Positions = Positions { x: &X, y: &Y };

/// What stands in a list before a call, to be found again past the answer.
const REST: u32 = 77;

#[test]
fn numbers_of_the_paper() {
    for (x, bits) in [(2.0, 0x3FB504F3), (100.0, 10f32.to_bits()), (f32::from_bits(1), 0x1A3504F3)] {
        assert_eq!(root(x).map(f32::to_bits), Ok(bits));
    }
    for (dx, dy, bits) in [(10.0, 10.0, 0x3F490FDB), (0.0, 10.0, 0x3FC90FDB), (-10.0, 0.0, 0x40490FDB), (0.0, 0.0, 0)] {
        assert_eq!(angle(dx, dy).map(f32::to_bits), Ok(bits));
    }
    assert_eq!(axis_distance(1.0, 0.75), Some(0.25));
    assert_eq!(axis_distance(f32::INFINITY, 0.0), None);
    assert!(float_settings_hold());
}

#[test]
fn an_axis_without_a_spread_is_informative() {
    let axes = [Axis { angle: 0.5, spread: None }, Axis { angle: 1.5, spread: Some(1.0) }];
    let cache = AxisCache { angles: [0.5, 1.5], informative: [true, false] };
    assert_eq!(axis_cache(axes, 1.0, SpreadRule::default()), Ok(cache));
    assert_eq!(axis_cache(axes, 1.5, SpreadRule::default()), Ok(AxisCache { informative: [true, true], ..cache }));
}

#[test]
fn the_square_from_triangles_to_entries() {
    let angles = [0.0, std::f32::consts::FRAC_PI_2].repeat(4);
    let axes = Axes { angles: &angles, marks: &[0; 8], spreads: &[0.0; 8] };
    let (mut classes, mut fits) = ([REST; 6], [77.0; 6]);
    let params = EdgeParams { tolerance: 0.25, limit: 1.0, ..EdgeParams::default() };
    assert_eq!(classify_all_edges(CORNERS, axes, &TRIANGLES, params, &mut classes, &mut fits), Ok(()));
    assert_eq!((classes, fits), ([1, 1, 2, 2, 1, 1], [0.0, 0.0, -1.0, -1.0, 0.0, 0.0]));

    let mesh = Mesh { triangles: &TRIANGLES, twins: &TWINS, classes: &classes };
    let mut quads = [[REST; 4]; 2];
    assert_eq!(merge_triangle_pairs(CORNERS, mesh, &mut quads), Ok(1));
    assert_eq!(quads, [[0, 1, 2, 3], [REST; 4]]);

    let mut work = vec![REST; quad_work(1, 4)];
    let mut kept = [[REST; 4]; 2];
    let params = FilterParams { ratio: 1.5, least: 0.5, greatest: 2.0 };
    assert_eq!(filter_quads(CORNERS, &quads[..1], params, &mut work, &mut kept), Ok(1));
    assert_eq!(kept, [[0, 1, 2, 3], [REST; 4]]);
    assert!(work.iter().all(|&word| word == 0));

    let rest = Entry { u: REST, v: REST, corner: REST };
    let mut components = [Component { before: REST, entries: REST, holes: REST }; 2];
    let mut entries = [rest; 5];
    let params = LabelParams { quads: 1, corners: 4 };
    let counts = label_components(&kept[..1], 4, params, &mut work, &mut components, &mut entries);
    assert_eq!(counts, Ok(Counts { components: 1, entries: 4 }));
    assert_eq!(components[0], Component { before: 0, entries: 4, holes: 0 });
    assert_eq!(components[1].holes, REST);
    let entry = |u, v, corner| Entry { u, v, corner };
    assert_eq!(entries, [entry(0, 0, 0), entry(0, 1, 3), entry(1, 0, 1), entry(1, 1, 2), rest]);
}

/// The components of quads, and their entries.
fn labelled(quads: &[Quad], params: LabelParams) -> (Vec<Component>, Vec<Entry>) {
    let corners = quads.iter().flatten().max().map_or(0, |last| last + 1);
    let mut work = vec![REST; quad_work(quads.len(), corners as usize)];
    let mut components = vec![Component::default(); quads.len()];
    let mut entries = vec![Entry::default(); 4 * quads.len()];
    let counts = label_components(quads, corners, params, &mut work, &mut components, &mut entries).expect("no refusal");
    components.truncate(counts.components);
    entries.truncate(counts.entries);
    (components, entries)
}

#[test]
fn labels_of_the_paper() {
    let any = LabelParams { quads: 1, corners: 1 };
    let (_, entries) = labelled(&[[0, 1, 2, 3], [1, 4, 5, 2]], any);
    assert!(entries.contains(&Entry { u: 2, v: 0, corner: 4 }) && entries.contains(&Entry { u: 2, v: 1, corner: 5 }));
    assert_eq!(labelled(&[[0, 1, 2, 3], [1, 2, 5, 4]], any).1.len(), 4);
    assert_eq!(labelled(&[[0, 1, 2, 3], [0, 3, 4, 5], [0, 5, 6, 1]], any), (vec![], vec![]));

    let round = [[0, 1, 2, 3], [0, 3, 4, 5], [0, 5, 6, 7], [0, 7, 8, 9]];
    let (components, entries) = labelled(&round, LabelParams { quads: 4, corners: 8 });
    // place (2,1) is claimed twice and has nothing to its right
    assert_eq!(components, [Component { before: 0, entries: 8, holes: 0 }]);
    assert!(entries.contains(&Entry { u: 0, v: 0, corner: 6 }) && entries.contains(&Entry { u: 1, v: 1, corner: 0 }));
    assert_eq!(labelled(&round, LabelParams { quads: 4, corners: 9 }).0, []);
    assert_eq!(labelled(&round, LabelParams { quads: 5, corners: 8 }).0, []);
}

/// The cells of five corners by five, numbered along the rows, that have none of these.
fn without(corners: &[u32]) -> Vec<Quad> {
    let cells = (0..4).flat_map(|v| (0..4).map(move |u| 5 * v + u)).map(|a| [a, a + 1, a + 6, a + 5]);
    cells.filter(|cell| !cell.iter().any(|corner| corners.contains(corner))).collect()
}

/// A place counts that has corners on all four sides, and no other: not those of an L-shaped sheet, nor of one open to a side.
#[test]
fn holes_have_corners_on_all_sides() {
    let any = LabelParams { quads: 1, corners: 1 };
    let component = |entries, holes| vec![Component { before: 0, entries, holes }];
    let holes = |corners: &[u32]| labelled(&without(corners), any).0;
    assert_eq!(holes(&[]), component(25, 0));
    assert_eq!(holes(&[12]), component(24, 1));
    assert_eq!(holes(&[3, 4, 8, 9, 13, 14]), component(19, 0));
    for open in [[12, 17, 22], [12, 13, 14], [2, 7, 12], [10, 11, 12]] {
        assert_eq!(holes(&open), component(22, 0));
    }
    // the second component's corners are none of the first's, which is the L
    let far = without(&[12]).into_iter().map(|quad| quad.map(|corner| corner + 25));
    let both: Vec<Quad> = without(&[3, 4, 8, 9, 13, 14]).into_iter().chain(far).collect();
    let second = Component { before: 19, entries: 24, holes: 1 };
    assert_eq!(labelled(&both, any).0, [component(19, 0), vec![second]].concat());
}

#[test]
fn lists_without_elements_are_lists() {
    let nothing = Positions { x: &[], y: &[] };
    let axes = Axes { angles: &[], marks: &[], spreads: &[] };
    assert_eq!(classify_all_edges(nothing, axes, &[], EdgeParams::default(), &mut [], &mut []), Ok(()));
    let mesh = Mesh { triangles: &[], twins: &[], classes: &[] };
    assert_eq!(merge_triangle_pairs(nothing, mesh, &mut []), Ok(0));
    let params = LabelParams { quads: 1, corners: 1 };
    let counts = label_components(&[], 0, params, &mut [], &mut [], &mut []);
    assert_eq!(counts, Ok(Counts { components: 0, entries: 0 }));
}
