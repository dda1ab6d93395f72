// The whole frame in one call: the square of the customer's paper (document 01; examples/square) labelled, and rows of the refusal table
// with what they leave of the lists.

use ngeunsadok::*;

const UP: f32 = std::f32::consts::FRAC_PI_2;

/// A square of four corners in two triangles, axes along its sides, no spreads.
const SQUARE: Frame = Frame {
    corners: Positions { x: &[0.0, 10.0, 10.0, 0.0], y: &[0.0, 0.0, 10.0, 10.0] },
    axes: Axes { angles: &[0.0, UP, 0.0, UP, 0.0, UP, 0.0, UP], marks: &[0; 8], spreads: &[0.0; 8] },
    triangles: &[0, 1, 2, 0, 2, 3],
    twins: &[NO_TWIN, NO_TWIN, 3, 2, NO_TWIN, NO_TWIN],
};
const PARAMS: Params = Params {
    edges: EdgeParams { tolerance: 0.25, limit: 1.0, rule: SpreadRule::MissingInformative },
    filters: FilterParams { ratio: 1.5, least: 0.5, greatest: 2.0 },
    labels: LabelParams { quads: 1, corners: 4 },
};

/// What stands in a list before a call.
const REST: u32 = 77;
const NO_COMPONENT: Component = Component { before: REST, entries: REST, holes: REST };
const NO_ENTRY: Entry = Entry { u: REST, v: REST, corner: REST };

/// The call with a workspace of so many words and lists of so many records, and the lists after it.
fn labelled(frame: Frame, params: Params, rooms: [usize; 3]) -> (Result<Counts, Refusal>, Vec<u32>, Vec<Component>, Vec<Entry>) {
    let [words, records, places] = rooms;
    let (mut work, mut components, mut entries) = (vec![REST; words], vec![NO_COMPONENT; records], vec![NO_ENTRY; places]);
    let answer = label_frame(frame, params, &mut work, &mut components, &mut entries);
    (answer, work, components, entries)
}

/// The call refuses by that row at that place, writes no list, and leaves the whole workspace filled with that word.
fn refused(frame: Frame, params: Params, rooms: [usize; 3], number: u32, place: u32, left: u32) {
    let (answer, work, components, entries) = labelled(frame, params, rooms);
    let refusal = answer.expect_err("a refusal");
    assert_eq!((refusal.number(), refusal.place()), (number, place));
    assert_eq!(work, vec![left; rooms[0]]);
    assert_eq!((components, entries), (vec![NO_COMPONENT; rooms[1]], vec![NO_ENTRY; rooms[2]]));
}

#[test]
fn the_square() {
    let entry = |u, v, corner| Entry { u, v, corner };
    let (answer, work, components, entries) = labelled(SQUARE, PARAMS, [frame_work(6, 4) + 3, 2, 5]);
    assert_eq!(answer, Ok(Counts { components: 1, entries: 4 }));
    assert_eq!(components, [Component { before: 0, entries: 4, holes: 0 }, NO_COMPONENT]);
    assert_eq!(entries, [entry(0, 0, 0), entry(0, 1, 3), entry(1, 0, 1), entry(1, 1, 2), NO_ENTRY]);
    assert_eq!(work, vec![0; 163]);
}

#[test]
fn a_group_below_the_least_is_no_component() {
    let params = Params { labels: LabelParams { quads: 2, corners: 4 }, ..PARAMS };
    let (answer, work, components, _) = labelled(SQUARE, params, [160, 1, 4]);
    assert_eq!(answer, Ok(Counts { components: 0, entries: 0 }));
    assert_eq!((work, components), (vec![0; 160], vec![NO_COMPONENT]));
}

#[test]
fn a_frame_without_corners() {
    let corners = Positions { x: &[], y: &[] };
    let axes = Axes { angles: &[], marks: &[], spreads: &[] };
    let nothing = Frame { corners, axes, triangles: &[], twins: &[] };
    assert_eq!(labelled(nothing, PARAMS, [0, 0, 0]).0, Ok(Counts { components: 0, entries: 0 }));
    assert_eq!(nothing.label(PARAMS), Ok(Labels::default()));
}

#[test]
fn the_defaults_are_the_originals() {
    let Params { edges, filters, labels } = Params::default();
    assert_eq!([edges.tolerance, edges.limit].map(f32::to_bits), [0x3E860A92, 0x3F19999A]);
    assert_eq!(edges.rule, SpreadRule::MissingInformative);
    let filters = [filters.ratio, filters.least, filters.greatest].map(f32::to_bits);
    assert_eq!(filters, [0x3FC00000, 0x3ECCCCCD, 0x40200000]);
    assert_eq!([labels.quads, labels.corners], [1, 4]);
}

#[test]
fn lists_of_their_own() {
    let (answer, _, components, entries) = labelled(SQUARE, PARAMS, [160, 1, 4]);
    assert!(answer.is_ok());
    let labels = SQUARE.label(PARAMS).expect("no refusal");
    assert_eq!((&labels.components, &labels.entries), (&components, &entries));
    assert_eq!(labels.entries_of(&labels.components[0]), entries);
    let least = Params { labels: LabelParams { quads: 2, corners: 4 }, ..PARAMS };
    assert_eq!(SQUARE.label(least), Ok(Labels::default()));
    assert_eq!(Frame { twins: &[], ..SQUARE }.label(PARAMS), Err(Refusal::Lengths));
    let twins = [NO_TWIN, NO_TWIN, 3, NO_TWIN, NO_TWIN, NO_TWIN];
    assert_eq!(Frame { twins: &twins, ..SQUARE }.label(PARAMS), Err(Refusal::TwinNotBack { half_edge: 2, twin: 3 }));
}

/// A list over its limit is refused for that, and not for the workspace that is made for it.
#[test]
fn lists_of_their_own_over_the_limits() {
    let many = vec![0; 6 * 24_576];
    assert_eq!(Frame { triangles: &many, twins: &many, ..SQUARE }.label(PARAMS), Err(Refusal::Limit));
    let far = vec![0.0; 8_194];
    let corners = Positions { x: &far[..4_097], y: &far[..4_097] };
    let axes = Axes { angles: &far, marks: &many[..8_194], spreads: &far };
    assert_eq!(Frame { corners, axes, ..SQUARE }.label(PARAMS), Err(Refusal::Limit));
}

#[test]
fn rows_that_come_before_the_workspace() {
    let rooms = [1, 1, 4];
    refused(Frame { twins: &SQUARE.twins[..5], ..SQUARE }, PARAMS, rooms, 1, 0, REST);
    let many = vec![0.0; 8_194];
    let (corners, axes) =
        (Positions { x: &many[..4_097], y: &many[..4_097] }, Axes { angles: &many, marks: &[0; 8_194], spreads: &many });
    refused(Frame { corners, axes, ..SQUARE }, PARAMS, rooms, 2, 0, REST);
    let edges = EdgeParams { limit: f32::NAN, ..PARAMS.edges };
    refused(SQUARE, Params { edges, ..PARAMS }, rooms, 3, 4, REST);
    let filters = FilterParams { ratio: f32::NAN, least: f32::NAN, ..PARAMS.filters };
    refused(SQUARE, Params { edges, filters, ..PARAMS }, rooms, 3, 1, REST);
    let corners = Positions { y: &[0.0, 0.0, 10.0, f32::INFINITY], ..SQUARE.corners };
    refused(Frame { corners, ..SQUARE }, PARAMS, rooms, 4, 3, REST);
    refused(Frame { triangles: &[0, 1, 2, 0, 2, 4], ..SQUARE }, PARAMS, rooms, 5, 5, REST);
    refused(Frame { triangles: &[0, 1, 2, 0, 2, 2], ..SQUARE }, PARAMS, rooms, 6, 1, REST);
    let twins = |word| [NO_TWIN, NO_TWIN, word, NO_TWIN, NO_TWIN, NO_TWIN];
    refused(Frame { twins: &twins(6), ..SQUARE }, PARAMS, rooms, 7, 2, REST);
    refused(Frame { twins: &twins(3), ..SQUARE }, PARAMS, rooms, 11, 2, REST);
    refused(Frame { twins: &[NO_TWIN, NO_TWIN, 4, NO_TWIN, 2, NO_TWIN], ..SQUARE }, PARAMS, rooms, 12, 2, REST);
}

/// The square so many times, apart from one another; then triangles 0 1 2 without twins, up to so many in all.
struct Squares {
    x: Vec<f32>,
    y: Vec<f32>,
    triangles: Vec<u32>,
    twins: Vec<u32>,
}

impl Squares {
    fn of(squares: u32, triangles: u32) -> Squares {
        let places = |own: &[f32], from: fn(u32) -> u32| {
            (0..squares).flat_map(|k| own.iter().map(move |at| at + 20.0 * from(k) as f32)).collect()
        };
        let corners = |k: u32| SQUARE.triangles.iter().map(move |corner| corner + 4 * k);
        let twins = |k: u32| SQUARE.twins.iter().map(move |&twin| if twin == NO_TWIN { NO_TWIN } else { twin + 6 * k });
        let more = 3 * (triangles - 2 * squares);
        Squares {
            x: places(SQUARE.corners.x, |k| k % 32),
            y: places(SQUARE.corners.y, |k| k / 32),
            triangles: (0..squares).flat_map(corners).chain((0..more).map(|place| place % 3)).collect(),
            twins: (0..squares).flat_map(twins).chain((0..more).map(|_| NO_TWIN)).collect(),
        }
    }
}

#[test]
fn the_limits_themselves() {
    let lists = Squares::of(1_024, 8_192);
    let (angles, marks, spreads) = ([0.0, UP].repeat(4_096), [0; 8_192], [0.0; 8_192]);
    let corners = Positions { x: &lists.x, y: &lists.y };
    let axes = Axes { angles: &angles, marks: &marks, spreads: &spreads };
    let frame = Frame { corners, axes, triangles: &lists.triangles, twins: &lists.twins };
    let (answer, work, components, entries) = labelled(frame, PARAMS, [16 * (24_576 + 4_096), 1_024, 4_096]);
    assert_eq!(answer, Ok(Counts { components: 1_024, entries: 4_096 }));
    assert!(work.iter().all(|&word| word == 0));
    assert_eq!(components[1_023], Component { before: 4_092, entries: 4, holes: 0 });
    assert_eq!(entries[4_095], Entry { u: 1, v: 1, corner: 4_094 });
    let labels = frame.label(PARAMS).expect("no refusal");
    assert_eq!((labels.components, labels.entries), (components, entries));
    let above = Squares::of(1_024, 8_193);
    refused(Frame { triangles: &above.triangles, twins: &above.twins, ..frame }, PARAMS, [1, 1, 4], 2, 0, REST);
}

#[test]
fn lists_without_room() {
    assert!(labelled(SQUARE, PARAMS, [160, 1, 4]).0.is_ok());
    refused(SQUARE, PARAMS, [159, 1, 4], 8, 160, REST);
    refused(SQUARE, PARAMS, [163, 0, 3], 9, 1, 0);
    refused(SQUARE, PARAMS, [160, 1, 3], 10, 4, 0);
}
