// The two spread rules on the axis cache, on the classes and on whole frames: an axis without a spread is informative by rule 1 and not by
// rule 2, one with a spread is judged alike by both. Then the archive's own calls with numbers that are no rule, which the safe ones cannot
// give: the refusal, its place among the rows, and that every list stays as it was.

mod full;
#[allow(dead_code)] // not every call has a rule
#[path = "../src/raw.rs"]
mod raw;

use full::Full;
use ngeunsadok::*;
use SpreadRule::{MissingInformative, MissingUninformative};

const RULES: [SpreadRule; 2] = [MissingInformative, MissingUninformative];
const UP: f32 = std::f32::consts::FRAC_PI_2;
const NO: u32 = NO_TWIN;

/// A square of four corners in two triangles, axes along its sides, no spreads; the numbers in their places are below the limit.
const SQUARE: Frame = Frame {
    corners: Positions { x: &[0.0, 10.0, 10.0, 0.0], y: &[0.0, 0.0, 10.0, 10.0] },
    axes: Axes { angles: &[0.0, UP, 0.0, UP, 0.0, UP, 0.0, UP], marks: &[0; 8], spreads: &[0.25; 8] },
    triangles: &[0, 1, 2, 0, 2, 3],
    twins: &[NO, NO, 3, 2, NO, NO],
};

/// What stands in a list before a call.
const REST: u32 = 77;
const NO_COMPONENT: Component = Component { before: REST, entries: REST, holes: REST };
const NO_ENTRY: Entry = Entry { u: REST, v: REST, corner: REST };

fn by(rule: SpreadRule) -> Params {
    Params { edges: EdgeParams { rule, ..EdgeParams::default() }, ..Params::default() }
}

fn marked<'a>(frame: Frame<'a>, marks: &'a [u32], spreads: &'a [f32]) -> Frame<'a> {
    Frame { axes: Axes { marks, spreads, ..frame.axes }, ..frame }
}

/// The classes, and the fits by their bits.
fn classified(frame: Frame, rule: SpreadRule) -> [Vec<u32>; 2] {
    let (mut classes, mut fits) = (vec![REST; frame.triangles.len()], vec![77.0; frame.triangles.len()]);
    let answer = classify_all_edges(frame.corners, frame.axes, frame.triangles, by(rule).edges, &mut classes, &mut fits);
    assert_eq!(answer, Ok(()));
    [classes, fits.into_iter().map(f32::to_bits).collect()]
}

fn classes(frame: Frame, rule: SpreadRule) -> Vec<u32> {
    let [classes, _] = classified(frame, rule);
    classes
}

fn labels(frame: Frame, rule: SpreadRule) -> Labels {
    frame.label(by(rule)).expect("no refusal")
}

#[test]
fn rule_1_is_the_default() {
    assert_eq!(RULES.map(SpreadRule::number), [1, 2]);
    assert_eq!(SpreadRule::default(), MissingInformative);
    assert_eq!(EdgeParams::default().rule, MissingInformative);
    assert_eq!(SQUARE.label(Params::default()), Ok(labels(SQUARE, MissingInformative)));
}

#[test]
fn the_cache() {
    let below = f32::from_bits(0x3F7F_FFFF);
    let numbers = [0.0, -0.0, below, 1.0, 2.0, -1.0, f32::MIN, f32::MAX, f32::NAN, f32::INFINITY, f32::NEG_INFINITY];
    let spreads: Vec<Option<f32>> = numbers.into_iter().map(Some).chain([None]).collect();
    for limit in [1.0, 0.0, f32::INFINITY, f32::NEG_INFINITY] {
        let known = |spread: f32| spread.is_finite() && spread < limit;
        for (&first, &second) in spreads.iter().flat_map(|first| spreads.iter().map(move |second| (first, second))) {
            let axes = [Axis { angle: 0.5, spread: first }, Axis { angle: 1.5, spread: second }];
            for rule in RULES {
                let informative = [first, second].map(|spread| spread.map_or(rule == MissingInformative, known));
                assert_eq!(axis_cache(axes, limit, rule), Ok(AxisCache { angles: [0.5, 1.5], informative }), "{axes:?} {rule:?}");
            }
        }
    }
}

#[test]
fn the_classes_of_the_square() {
    let all = [1, 1, 2, 2, 1, 1];
    assert_eq!(RULES.map(|rule| classes(SQUARE, rule)), [all.to_vec(), vec![0; 6]]);
    let present = marked(SQUARE, &[1; 8], &[0.25; 8]);
    assert_eq!(RULES.map(|rule| classes(present, rule)), [all, all]);
    // corner 0 has no spread along half-edge 0, which runs to corner 1
    let one = marked(SQUARE, &[0, 1, 1, 1, 1, 1, 1, 1], &[0.25; 8]);
    assert_eq!(RULES.map(|rule| classes(one, rule)), [all, [0, 1, 0, 2, 1, 1]]);
}

/// Whatever spreads are missing: by rule 1 as if they were all there, by rule 2 as if each that is missing were NaN.
#[test]
fn every_choice_of_missing_spreads() {
    let present = marked(SQUARE, &[1; 8], &[0.25; 8]);
    for choice in 0..256u32 {
        let marks: [u32; 8] = std::array::from_fn(|slot| choice >> slot & 1);
        let missing = marks.map(|mark| if mark == 0 { f32::NAN } else { 0.25 });
        let (some, given_up) = (marked(SQUARE, &marks, &[0.25; 8]), marked(SQUARE, &[1; 8], &missing));
        assert_eq!(classified(some, MissingInformative), classified(present, MissingInformative), "{marks:?}");
        assert_eq!(labels(some, MissingInformative), labels(present, MissingInformative), "{marks:?}");
        for rule in RULES {
            assert_eq!(classified(some, MissingUninformative), classified(given_up, rule), "{marks:?}");
            assert_eq!(labels(some, MissingUninformative), labels(given_up, rule), "{marks:?}");
        }
    }
}

/// The square and another beside it that has all spreads: by rule 2 the second is left.
#[test]
fn a_frame_of_two_squares() {
    let x: Vec<f32> = [0.0, 50.0].into_iter().flat_map(|left| SQUARE.corners.x.iter().map(move |x| left + x)).collect();
    let corners = Positions { x: &x, y: &SQUARE.corners.y.repeat(2) };
    let (angles, spreads) = (SQUARE.axes.angles.repeat(2), [0.25; 16]);
    let triangles = [0, 1, 2, 0, 2, 3, 4, 5, 6, 4, 6, 7];
    let twins = twins_of(&triangles);
    let entry = |u, v, corner| Entry { u, v, corner };
    let entries = |k| [entry(0, 0, k), entry(0, 1, k + 3), entry(1, 0, k + 1), entry(1, 1, k + 2)];
    let component = |before| Component { before, entries: 4, holes: 0 };
    let both = Labels { components: vec![component(0), component(4)], entries: [entries(0), entries(4)].concat() };
    let second = Labels { components: vec![component(0)], entries: entries(4).to_vec() };
    let of = |marks: &[u32; 16], rule| {
        let axes = Axes { angles: &angles, marks, spreads: &spreads };
        labels(Frame { corners, axes, triangles: &triangles, twins: &twins }, rule)
    };
    let present = [1; 16];
    assert_eq!(RULES.map(|rule| of(&present, rule)), [both.clone(), both.clone()]);
    for slot in 0..8 {
        let mut marks = present;
        marks[slot] = 0;
        assert_eq!(RULES.map(|rule| of(&marks, rule)), [both.clone(), second.clone()], "{slot}");
    }
}

/// The full mesh has a spread in slot 0 and none in slot 1.
#[test]
fn a_full_mesh() {
    let full = Full::of(0);
    let frame = full.frame();
    let all = labels(frame, MissingInformative);
    assert!(all.entries.len() > 3_900);
    assert_eq!(labels(frame, MissingUninformative), Labels::default());
    let (present, spreads) = ([1; 2 * MOST_CORNERS], [0.25; 2 * MOST_CORNERS]);
    for rule in RULES {
        assert_eq!(labels(marked(frame, &present, &spreads), rule), all);
    }
    // the last slot alone without a spread
    let (mut marks, mut given_up) = (present, spreads);
    (marks[2 * MOST_CORNERS - 1], given_up[2 * MOST_CORNERS - 1]) = (0, f32::NAN);
    let left = labels(marked(frame, &marks, &spreads), MissingUninformative);
    assert_ne!(left, all);
    assert_eq!(left, labels(marked(frame, &present, &given_up), MissingInformative));
    assert_eq!(labels(marked(frame, &marks, &spreads), MissingInformative), all);
}

/// Numbers that are no rule, some with the last bits of one.
const NO_RULES: [u32; 9] = [0, 3, 4, 0x101, 0x102, 0x1_0001, 0x8000_0001, 0x8000_0002, u32::MAX];

/// A refusal's number and its place; 0 and 0 where there is none.
type Said = (u32, u32);

/// The archive's cache of an axis with a spread and one without. A refusal has 0 for everything else.
fn cached(limit: f32, rule: u32) -> (Said, [u32; 2]) {
    // SAFETY: numbers alone cross the boundary.
    let cache = unsafe { raw::ngeunsadok_axis_cache(0.5, 1, 0.25, 1.5, 0, 0.25, limit, rule) };
    let (angles, informative) = ([cache.angle0, cache.angle1], [cache.informative0, cache.informative1]);
    if cache.refused == 0 {
        assert_eq!(angles, [0.5, 1.5]);
    } else {
        assert_eq!((angles.map(f32::to_bits), informative), ([0; 2], [0; 2]));
    }
    ((cache.refused, cache.place), informative)
}

/// What the archive says of a frame's classes, and the classes. A refusal leaves them and the fits as they were.
fn classed(frame: Frame, edges: EdgeParams, rule: u32) -> (Said, Vec<u32>) {
    let Frame { corners, axes, triangles, .. } = frame;
    let (mut classes, mut fits) = (vec![REST; triangles.len()], vec![77.0; triangles.len()]);
    // SAFETY: each pointer comes with the length of its slice, and no other slice shares those that are written.
    #[rustfmt::skip] // a line for each list
    let verdict = unsafe {
        raw::ngeunsadok_classify_all_edges(
            corners.x.as_ptr(), corners.x.len(),
            corners.y.as_ptr(), corners.y.len(),
            axes.angles.as_ptr(), axes.angles.len(),
            axes.marks.as_ptr(), axes.marks.len(),
            axes.spreads.as_ptr(), axes.spreads.len(),
            triangles.as_ptr(), triangles.len(),
            edges.tolerance, edges.limit, rule,
            classes.as_mut_ptr(), classes.len(),
            fits.as_mut_ptr(), fits.len(),
        )
    };
    assert!(verdict.refused == 0 || classes.iter().all(|&class| class == REST) && fits.iter().all(|&fit| fit == 77.0));
    ((verdict.refused, verdict.place), classes)
}

/// What the archive says of a whole frame, with a workspace of so many words and lists of so many records, and the counts. A refusal before
/// row 9 leaves every list as it was.
fn framed(frame: Frame, params: Params, rule: u32, rooms: [usize; 3]) -> (Said, [u32; 2]) {
    let Frame { corners, axes, triangles, twins } = frame;
    let Params { edges, filters, labels } = params;
    let [words, records, places] = rooms;
    let (mut work, mut components, mut entries) = (vec![REST; words], vec![NO_COMPONENT; records], vec![NO_ENTRY; places]);
    // SAFETY: each pointer comes with the length of its slice, a record being three words without padding, and no other slice shares those
    // that are written.
    #[rustfmt::skip] // a line for each list
    let counts = unsafe {
        raw::ngeunsadok_label_frame(
            corners.x.as_ptr(), corners.x.len(),
            corners.y.as_ptr(), corners.y.len(),
            axes.angles.as_ptr(), axes.angles.len(),
            axes.marks.as_ptr(), axes.marks.len(),
            axes.spreads.as_ptr(), axes.spreads.len(),
            triangles.as_ptr(), triangles.len(),
            twins.as_ptr(), twins.len(),
            edges.tolerance, filters.ratio, filters.least, filters.greatest, edges.limit,
            labels.quads, labels.corners, rule,
            work.as_mut_ptr(), work.len(),
            components.as_mut_ptr().cast(), 3 * components.len(),
            entries.as_mut_ptr().cast(), 3 * entries.len(),
        )
    };
    let counted = [counts.components, counts.entries];
    assert_eq!(counts.beside, 0);
    if counts.refused != 0 {
        assert_eq!(counted, [0; 2]);
        assert!(work.iter().all(|&word| word == REST));
        assert!(components.iter().all(|component| *component == NO_COMPONENT) && entries.iter().all(|entry| *entry == NO_ENTRY));
    }
    ((counts.refused, counts.place), counted)
}

/// As many words and records as the square asks for.
const ROOMS: [usize; 3] = [frame_work(6, 4), 1, 4];

/// Another rule, at place 0.
const RULE: Said = (18, 0);

#[test]
fn the_rules_by_their_numbers() {
    let edges = EdgeParams::default();
    assert_eq!([1, 2].map(|rule| cached(1.0, rule)), [((0, 0), [1, 1]), ((0, 0), [1, 0])]);
    let classes = [1, 2].map(|rule| classed(SQUARE, edges, rule));
    assert_eq!(classes, [((0, 0), vec![1, 1, 2, 2, 1, 1]), ((0, 0), vec![0; 6])]);
    assert_eq!([1, 2].map(|rule| framed(SQUARE, Params::default(), rule, ROOMS)), [((0, 0), [1, 4]), ((0, 0), [0, 0])]);
}

#[test]
fn numbers_that_are_no_rule() {
    let present = marked(SQUARE, &[1; 8], &[0.25; 8]);
    let nothing = Frame {
        corners: Positions { x: &[], y: &[] },
        axes: Axes { angles: &[], marks: &[], spreads: &[] },
        triangles: &[],
        twins: &[],
    };
    for rule in NO_RULES {
        assert_eq!(cached(1.0, rule).0, RULE, "{rule}");
        for frame in [SQUARE, present, nothing] {
            assert_eq!(classed(frame, EdgeParams::default(), rule).0, RULE, "{rule}");
            assert_eq!(framed(frame, Params::default(), rule, ROOMS).0, RULE, "{rule}");
        }
    }
}

/// What both calls over lists say of a frame beside another rule; the whole one has no workspace and no room.
fn both(frame: Frame, params: Params) -> Said {
    let said = NO_RULES.map(|rule| [classed(frame, params.edges, rule).0, framed(frame, params, rule, [0; 3]).0]);
    assert!(said.as_flattened().iter().all(|other| *other == said[0][0]), "{said:?}");
    said[0][0]
}

#[test]
fn rows_1_to_3_come_before_another_rule() {
    let params = Params::default();
    let corners = Positions { y: &SQUARE.corners.y[..3], ..SQUARE.corners };
    assert_eq!(both(Frame { corners, ..SQUARE }, params), (1, 0));
    let many = [0.0; 8_194];
    let corners = Positions { x: &many[..4_097], y: &many[..4_097] };
    let axes = Axes { angles: &many, marks: &[0; 8_194], spreads: &many };
    assert_eq!(both(Frame { corners, axes, ..SQUARE }, params), (2, 0));
    let edges = [EdgeParams { tolerance: f32::NAN, ..params.edges }, EdgeParams { limit: f32::NAN, ..params.edges }];
    assert_eq!(edges.map(|edges| both(SQUARE, Params { edges, ..params })), [(3, 0), (3, 4)]);
    let filters = params.filters;
    let filters = [
        FilterParams { ratio: f32::NAN, ..filters },
        FilterParams { least: f32::NAN, ..filters },
        FilterParams { greatest: f32::NAN, ..filters },
    ];
    for rule in NO_RULES {
        let said = filters.map(|filters| framed(SQUARE, Params { filters, ..params }, rule, ROOMS).0);
        assert_eq!(said, [(3, 1), (3, 2), (3, 3)]);
        assert_eq!(cached(f32::NAN, rule).0, (3, 4));
    }
}

#[test]
fn another_rule_comes_before_rows_4_to_12() {
    let params = Params::default();
    let corners = Positions { x: &[f32::NAN, 10.0, 10.0, 0.0], ..SQUARE.corners };
    let faults = [
        (4, Frame { corners, ..SQUARE }),
        (5, Frame { triangles: &[0, 1, 4, 0, 2, 3], ..SQUARE }),
        (6, Frame { triangles: &[0, 1, 1, 0, 2, 3], ..SQUARE }),
        (7, Frame { twins: &[6, NO, 3, 2, NO, NO], ..SQUARE }),
        (11, Frame { twins: &[4, NO, 3, 2, NO, NO], ..SQUARE }),
        (12, Frame { twins: &[0, NO, 3, 2, NO, NO], ..SQUARE }),
        (8, SQUARE),
    ];
    for (number, frame) in faults {
        assert_eq!(both(frame, params), RULE, "{number}");
        for rule in RULES {
            let answer = label_frame(frame, by(rule), &mut [], &mut [], &mut []);
            assert_eq!(answer.map_err(Refusal::number), Err(number), "{rule:?}");
        }
    }
    // rows 9 and 10, which the square has by rule 1 alone: by rule 2 it has no component
    for (number, rooms) in [(9, [160, 0, 0]), (10, [160, 1, 3])] {
        let (mut work, mut components, mut entries) = ([REST; 160], vec![NO_COMPONENT; rooms[1]], vec![NO_ENTRY; rooms[2]]);
        let mut answer = |rule| label_frame(SQUARE, by(rule), &mut work, &mut components, &mut entries);
        assert_eq!(answer(MissingInformative).map_err(Refusal::number), Err(number));
        assert_eq!(answer(MissingUninformative), Ok(Counts { components: 0, entries: 0 }));
        assert!(NO_RULES.iter().all(|&rule| framed(SQUARE, params, rule, rooms).0 == RULE));
    }
}
