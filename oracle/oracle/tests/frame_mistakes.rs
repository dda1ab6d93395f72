// Mistakes in the whole frame: a stage left out, rows exchanged, parameters exchanged, wrong words
// left. Each gives another answer to some of the frame vectors.

mod common {
    pub mod mistakes;
    pub mod twins;
}

use common::mistakes::{each_is_told, Mistake};
use common::twins::{Twins, TWINS};
use frame::{AxisPair, Component, Frame, Params};
use oracle::demand;
use oracle::judge::{missing_corner, paired, repeated_corner, Refusal};
use oracle::told::Told;
use oracle::vectors::frames::{frame_cases, Case};
use oracle::vectors::{moved, Vector};
use oracle::words;

type Quad = [u32; 4];
type Filter = fn(&Frame, &[Quad]) -> Vec<Quad>;
/// What a row says of a case and of the components found.
type Row = fn(&Case, &dyn Fn() -> Vec<Component>) -> Option<Refusal>;

/// The frame's rules, each of which can be got wrong.
struct Rules {
    /// Tried in this order. Those of twins are one.
    rows: [Row; 10],
    params: fn(Params) -> Params,
    axes: fn(&Frame) -> Vec<AxisPair>,
    classes: fn(&Frame, &[AxisPair]) -> Vec<u32>,
    filters: [Filter; 3],
    components: fn(Vec<Component>) -> Vec<Component>,
    /// Whether the workspace is all zero after success, after rows 9 and 10, after others.
    zero: [bool; 3],
    /// What stays past the answer's words.
    tail: fn(&mut [u32]),
}

fn lengths(case: &Case) -> Option<usize> {
    (!paired(&case.frame)).then_some(0)
}

fn counts(case: &Case) -> Option<usize> {
    (case.frame.corners() > 4_096 || case.frame.half_edges() > 24_576).then_some(0)
}

fn numbers(case: &Case) -> Option<usize> {
    case.frame.params.floats().iter().position(|p| p.is_nan())
}

fn positions(case: &Case, greatest: f32) -> Option<usize> {
    let far = |p: &f32| p.is_nan() || p.abs() > greatest;
    case.frame.x.iter().zip(&case.frame.y).position(|(x, y)| far(x) || far(y))
}

fn twins(case: &Case) -> Option<Refusal> {
    TWINS.refusal(&case.frame)
}

fn words_short(case: &Case, each: [usize; 2]) -> Option<usize> {
    let wanted = each[0] * case.frame.half_edges() + each[1] * case.frame.corners();
    (case.work.len() < wanted).then_some(wanted)
}

fn records_short(list: &[u32], wanted: usize) -> Option<usize> {
    (list.len() / 3 < wanted).then_some(wanted)
}

fn entries(found: &[Component]) -> usize {
    found.iter().map(|component| component.entries.len()).sum()
}

/// A row other than those of twins, at its place.
fn at(row: u32, place: Option<usize>) -> Option<Refusal> {
    place.map(|place| Refusal::at(row, place as u32))
}

const ROWS: [Row; 10] = [
    |case, _| at(1, lengths(case)),
    |case, _| at(2, counts(case)),
    |case, _| at(3, numbers(case)),
    |case, _| at(4, positions(case, 1_048_576.0)),
    |case, _| at(5, missing_corner(&case.frame.triangles, case.frame.corners())),
    |case, _| at(6, repeated_corner(&case.frame.triangles, 3)),
    |case, _| twins(case),
    |case, _| at(8, words_short(case, [16, 16])),
    |case, found| at(9, records_short(&case.components, found().len())),
    |case, found| at(10, records_short(&case.entries, entries(&found()))),
];

const RIGHT: Rules = Rules {
    rows: ROWS,
    params: |params| params,
    axes: words::axes,
    classes: words::classes,
    filters: [
        |_, quads| words::filters::topology(quads),
        words::filters::opposing_sides,
        words::filters::cell_size,
    ],
    components: |found| found,
    zero: [true, true, false],
    tail: |_| (),
};

impl Rules {
    fn components(&self, case: &Case) -> Vec<Component> {
        let params = (self.params)(case.frame.params);
        let frame = Frame { params, ..case.frame.clone() };
        let axes = (self.axes)(&frame);
        let quads = words::quads(&frame, &(self.classes)(&frame, &axes));
        let kept = self.filters.iter().fold(quads, |quads, filter| filter(&frame, &quads));
        let fates = demand::fates(&kept, params.least_quads, params.least_corners);
        (self.components)(demand::components(&fates))
    }

    fn refusal(&self, case: &Case, found: &dyn Fn() -> Vec<Component>) -> Option<Refusal> {
        self.rows.iter().find_map(|row| row(case, found))
    }

    /// Words at the front of a list, as far as it has room.
    fn front(&self, list: &mut [u32], words: &[u32]) {
        let (front, rest) = list.split_at_mut(words.len().min(list.len()));
        front.copy_from_slice(&words[..front.len()]);
        (self.tail)(rest);
    }

    /// Writes the answer to the two lists; gives its counts.
    fn write(&self, found: &[Component], heads: &mut [u32], listed: &mut [u32]) -> [usize; 2] {
        let (mut records, mut entries) = (Vec::new(), Vec::new());
        for component in found {
            let count = component.entries.len() as u32;
            records.extend([entries.len() as u32 / 3, count, component.holes]);
            for entry in &component.entries {
                entries.extend([entry.u as u32, entry.v as u32, entry.corner]);
            }
        }
        self.front(heads, &records);
        self.front(listed, &entries);
        [found.len(), entries.len() / 3]
    }

    fn answer(&self, case: &Case) -> Told<2, 3> {
        let found = std::cell::OnceCell::new();
        let components = || found.get_or_init(|| self.components(case)).clone();
        Told::by(case.lent(), |[work, heads, listed]| {
            let refusal = self.refusal(case, &components);
            let kind =
                refusal.map_or(0, |refusal| if matches!(refusal.row, 9 | 10) { 1 } else { 2 });
            if self.zero[kind] {
                work.fill(0);
            }
            match refusal {
                Some(refusal) => Err(refusal),
                None => Ok(self.write(&components(), heads, listed)),
            }
        })
    }
}

/// The rows with two that stand beside each other exchanged.
fn exchanged(rules: &mut Rules, first: usize) {
    rules.rows.swap(first - 1, first);
}

/// One of the rows of twins tried before row 6.
fn early<const ROW: u32>(rules: &mut Rules) {
    rules.rows[5] =
        |case, found| twins(case).filter(|r| r.row == ROW).or_else(|| ROWS[5](case, found));
}

/// One of the rows of twins tried behind row 8.
fn late<const ROW: u32>(rules: &mut Rules) {
    rules.rows[6] = |case, _| twins(case).filter(|r| r.row != ROW);
    rules.rows[7] = |case, found| ROWS[7](case, found).or_else(|| twins(case));
}

fn all_informative(frame: &Frame) -> Vec<AxisPair> {
    let pairs = words::axes(frame).into_iter();
    pairs.map(|pair| AxisPair { informative: [true; 2], ..pair }).collect()
}

/// The classes before any third side becomes Diagonal.
fn without_diagonals(frame: &Frame, axes: &[AxisPair]) -> Vec<u32> {
    let classes = words::classes(frame, axes).into_iter();
    classes.map(|class| if class == 2 { 0 } else { class }).collect()
}

/// Every twin has the class of the lower half-edge.
fn twins_alike(frame: &Frame, axes: &[AxisPair]) -> Vec<u32> {
    let classes = words::classes(frame, axes);
    let lower = |e: usize| e.min(frame.twins[e] as usize);
    (0..classes.len()).map(|e| classes[lower(e)]).collect()
}

/// A number one float on, if there is a finite one.
fn next(x: f32, steps: i32) -> f32 {
    Some(moved(x, steps)).filter(|x| x.is_finite()).unwrap_or(x)
}

const MISTAKES: [Mistake<Rules>; 52] = [
    ("rows 1 and 2 exchanged", |r| exchanged(r, 1)),
    ("rows 2 and 3 exchanged", |r| exchanged(r, 2)),
    ("rows 3 and 4 exchanged", |r| exchanged(r, 3)),
    ("rows 4 and 5 exchanged", |r| exchanged(r, 4)),
    ("rows 5 and 6 exchanged", |r| exchanged(r, 5)),
    ("rows 6 and 7 exchanged", |r| exchanged(r, 6)),
    ("rows 7 and 8 exchanged", |r| exchanged(r, 7)),
    ("rows 8 and 9 exchanged", |r| exchanged(r, 8)),
    ("rows 9 and 10 exchanged", |r| exchanged(r, 9)),
    ("row 7 before row 6", early::<7>),
    ("row 11 before row 6", early::<11>),
    ("row 12 before row 6", early::<12>),
    ("row 7 behind row 8", late::<7>),
    ("row 11 behind row 8", late::<11>),
    ("row 12 behind row 8", late::<12>),
    ("rows 11 and 12 behind row 10", |r| {
        r.rows[6] = |case, _| Twins { tests: [TWINS.tests[0]; 3], ..TWINS }.refusal(&case.frame);
        r.rows[9] = |case, found| ROWS[9](case, found).or_else(|| twins(case));
    }),
    ("the words of the filters wanted", |r| {
        r.rows[7] = |case, _| at(8, words_short(case, [5, 16]));
    }),
    ("a word less wanted", |r| {
        r.rows[7] =
            |case, _| at(8, words_short(case, [16, 16]).filter(|w| case.work.len() + 1 < *w));
    }),
    ("components' room in words", |r| {
        r.rows[8] = |case, found| at(9, records_short(&case.components, 3 * found().len()));
    }),
    ("entries' room a record less", |r| {
        r.rows[9] = |case, found| {
            let wanted = entries(&found());
            let short = records_short(&case.entries, wanted);
            at(10, short.filter(|_| case.entries.len() + 3 < 3 * wanted))
        };
    }),
    ("corners' places in triangles", |r| {
        r.rows[4] = |case, _| {
            at(5, missing_corner(&case.frame.triangles, case.frame.corners()).map(|p| p / 3))
        };
    }),
    ("the greatest position refused", |r| {
        r.rows[3] = |case, _| at(4, positions(case, moved(1_048_576.0, -1)));
    }),
    ("the next position taken", |r| {
        r.rows[3] = |case, _| at(4, positions(case, moved(1_048_576.0, 1)));
    }),
    ("a distance at the tolerance is Grid", |r| {
        r.params = |p| Params { tolerance: next(p.tolerance, 1), ..p };
    }),
    ("a distance just below the tolerance is not", |r| {
        r.params = |p| Params { tolerance: next(p.tolerance, -1), ..p };
    }),
    ("a spread at the limit is informative", |r| {
        r.params = |p| Params { spread_limit: next(p.spread_limit, 1), ..p };
    }),
    ("a spread just below the limit is not", |r| {
        r.params = |p| Params { spread_limit: next(p.spread_limit, -1), ..p };
    }),
    ("a ratio at the limit drops", |r| r.params = |p| Params { ratio: next(p.ratio, -1), ..p }),
    ("a quad less wanted", |r| {
        r.params = |p| Params { least_quads: p.least_quads.saturating_sub(1), ..p };
    }),
    ("a quad more wanted", |r| {
        r.params = |p| Params { least_quads: p.least_quads.saturating_add(1), ..p };
    }),
    ("a corner less wanted", |r| {
        r.params = |p| Params { least_corners: p.least_corners.saturating_sub(1), ..p };
    }),
    ("a corner more wanted", |r| {
        r.params = |p| Params { least_corners: p.least_corners.saturating_add(1), ..p };
    }),
    ("no axis cache", |r| r.axes = all_informative),
    ("no diagonals", |r| r.classes = without_diagonals),
    ("a side judged once for both twins", |r| r.classes = twins_alike),
    ("no first filter", |r| r.filters[0] = |_, quads| quads.to_vec()),
    ("no second filter", |r| r.filters[1] = |_, quads| quads.to_vec()),
    ("no third filter", |r| r.filters[2] = |_, quads| quads.to_vec()),
    ("second filter first", |r| r.filters.swap(0, 1)),
    ("third filter before the second", |r| r.filters.swap(1, 2)),
    ("tolerance and spread limit exchanged", |r| {
        r.params = |p| Params { tolerance: p.spread_limit, spread_limit: p.tolerance, ..p };
    }),
    ("tolerance and ratio exchanged", |r| {
        r.params = |p| Params { tolerance: p.ratio, ratio: p.tolerance, ..p };
    }),
    ("ratio and least exchanged", |r| {
        r.params = |p| Params { ratio: p.least, least: p.ratio, ..p };
    }),
    ("ratio and greatest exchanged", |r| {
        r.params = |p| Params { ratio: p.greatest, greatest: p.ratio, ..p };
    }),
    ("least and greatest exchanged", |r| {
        r.params = |p| Params { least: p.greatest, greatest: p.least, ..p };
    }),
    ("greatest and spread limit exchanged", |r| {
        r.params = |p| Params { greatest: p.spread_limit, spread_limit: p.greatest, ..p };
    }),
    ("least quads and least corners exchanged", |r| {
        r.params = |p| Params { least_quads: p.least_corners, least_corners: p.least_quads, ..p };
    }),
    ("components by their sizes", |r| {
        r.components = |mut found| {
            found.sort_by_key(|component| component.entries.len());
            found
        };
    }),
    ("one component at most", |r| r.components = |found| found.into_iter().take(1).collect()),
    ("the workspace zeroed by every refusal", |r| r.zero[2] = true),
    ("the workspace kept by rows 9 and 10", |r| r.zero[1] = false),
    ("the rest of the lists zeroed", |r| r.tail = |words| words.fill(0)),
];

fn answered() -> Vec<(Case, Told<2, 3>)> {
    frame_cases().into_iter().map(|case| (case.clone(), case.answer())).collect()
}

#[test]
fn the_rules_are_right() {
    for (case, told) in answered() {
        assert_eq!(RIGHT.answer(&case), told, "{case:?}");
    }
}

#[test]
fn every_mistake_is_told() {
    each_is_told(|| RIGHT, &MISTAKES, &answered(), Rules::answer);
}
