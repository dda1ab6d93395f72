// Mistakes in telling twins' faults apart: each gives another line of a refusal to some of the stage
// vectors, to some of the frame vectors and to some of the text vectors.

mod common {
    pub mod mistakes;
    pub mod twins;
}

use common::mistakes::{each_is_told, Mistake};
use common::twins::{Twins, TWINS};
use frame::{Frame, NONE};
use oracle::judge::{judge, Refusal, TWIN_ROWS};
use oracle::stages::Build;
use oracle::text::{answer, read};
use oracle::vectors::frames::frame_cases;
use oracle::vectors::stages::{stage_cases, Kind};
use oracle::vectors::texts::text_groups;
use oracle::vectors::{Answer, Vector};

/// The rules, each of which can be got wrong.
struct Rules {
    twins: Twins,
    /// The numbers that are printed of a refusal.
    fields: fn(&Refusal) -> Vec<u32>,
}

fn fields(refusal: &Refusal) -> Vec<u32> {
    let Refusal { row, place, beside } = *refusal;
    match row {
        7 | 11 | 12 => vec![row, place, beside],
        _ => vec![row, place],
    }
}

const RIGHT: Rules = Rules { twins: TWINS, fields };

/// A frame with the refusal that it gets, and how a number is printed there.
struct Case {
    frame: Frame,
    refusal: Option<Refusal>,
    number: fn(u32) -> String,
}

/// A case with the line of its refusal, as its answer has it.
type Lined = (Case, Option<String>);

impl Rules {
    /// The other rows are as they were told.
    fn refusal(&self, case: &Case) -> Option<Refusal> {
        let other = case.refusal.filter(|refusal| !TWIN_ROWS.contains(&refusal.row));
        match other {
            Some(refusal) if refusal.row < 7 || refusal.row == 18 => other,
            _ => self.twins.refusal(&case.frame).or(other),
        }
    }

    /// The line of the refusal, if there is one.
    fn line(&self, case: &Case) -> Option<String> {
        let refusal = self.refusal(case)?;
        let fields = (self.fields)(&refusal).into_iter().map(case.number);
        Some(format!("refused {}", fields.collect::<Vec<_>>().join(" ")))
    }
}

fn lined(case: Case, said: &str) -> Lined {
    let line = said.lines().next().filter(|line| line.starts_with("refused"));
    (case, line.map(String::from))
}

fn vector(case: &impl Vector, frame: &Frame) -> Lined {
    let (answer, frame) = (case.answer(), frame.clone());
    let number = |number: u32| format!("{number:08X}");
    lined(Case { frame, refusal: answer.refusal(), number }, &answer.lines())
}

fn text(text: &[u8]) -> Option<Lined> {
    let frame = read(text).ok()?;
    let refusal = judge(&frame);
    let number = |number: u32| number.to_string();
    Some(lined(Case { frame, refusal, number }, &answer(text, Build::Ruled)))
}

/// The vectors of the quads call, of the frame and of the program.
fn vectors() -> [(&'static str, Vec<Lined>); 3] {
    let quads = stage_cases().into_iter().filter(|case| case.kind == Kind::Quads);
    let texts = text_groups().into_iter().flat_map(|group| group.texts);
    [
        ("stages", quads.map(|case| vector(&case, &case.frame)).collect()),
        ("frames", frame_cases().iter().map(|case| vector(case, &case.frame)).collect()),
        ("texts", texts.filter_map(|bytes| text(&bytes)).collect()),
    ]
}

/// A test of a twin that is taken modulo the number of half-edges.
fn modulo<const TEST: usize>(frame: &Frame, e: usize, twin: u32) -> bool {
    TWINS.tests[TEST].1(frame, e, twin % frame.half_edges() as u32)
}

/// Row 12, which takes the half-edge itself.
fn not_own(frame: &Frame, e: usize, twin: u32) -> bool {
    twin as usize != e && TWINS.tests[2].1(frame, e, twin)
}

/// A test that takes the number before "none" for none.
fn not_last<const TEST: usize>(frame: &Frame, e: usize, twin: u32) -> bool {
    twin != NONE - 1 && TWINS.tests[TEST].1(frame, e, twin)
}

/// Row 12, which takes another half-edge that runs the same way between the same corners.
fn alike(frame: &Frame, e: usize, twin: u32) -> bool {
    let same_way = twin as usize != e && frame.ends(e) == frame.ends(twin as usize);
    !same_way && TWINS.tests[2].1(frame, e, twin)
}

/// All half-edges tried by one row before any is by the next.
fn row_by_row(refusals: &mut dyn Iterator<Item = Refusal>) -> Option<Refusal> {
    refusals.min_by_key(|refusal| refusal.row)
}

const MISTAKES: [Mistake<Rules>; 18] = [
    ("rows 11 and 12 exchanged", |r| {
        (r.twins.tests[1].0, r.twins.tests[2].0) = (12, 11);
    }),
    ("rows 7 and 11 exchanged", |r| {
        (r.twins.tests[0].0, r.twins.tests[1].0) = (11, 7);
    }),
    ("row 12 tried before row 11", |r| r.twins.tests.swap(1, 2)),
    ("row 11 tried before row 7", |r| r.twins.tests.swap(0, 1)),
    ("row 11 tried before row 7, the twin modulo the length", |r| {
        r.twins.tests = [(11, modulo::<1>), TWINS.tests[0], TWINS.tests[2]];
    }),
    ("a twin taken modulo the length", |r| {
        r.twins.tests = [(7, modulo::<0>), (11, modulo::<1>), (12, modulo::<2>)];
    }),
    ("the limit taken for the length", |r| r.twins.tests[0].1 = |_, _, twin| twin >= 24_576),
    ("the length itself taken for a half-edge", |r| {
        r.twins.tests[0].1 = |frame, _, twin| twin as usize > frame.half_edges();
    }),
    ("the number before none taken for none", |r| {
        r.twins.tests = [(7, not_last::<0>), (11, not_last::<1>), (12, not_last::<2>)];
    }),
    ("its own half-edge taken for no fault", |r| r.twins.tests[2].1 = not_own),
    ("a twin that runs the same way taken", |r| r.twins.tests[2].1 = alike),
    ("all half-edges by row 7, then by 11, then by 12", |r| r.twins.pick = row_by_row),
    ("the last bad half-edge told", |r| r.twins.pick = |refusals| refusals.last()),
    ("the half-edge told for the twin", |r| {
        r.twins.told = |_, refusal| Refusal { beside: refusal.place, ..refusal };
    }),
    ("the twin told for the half-edge", |r| {
        r.twins.told = |_, refusal| Refusal { place: refusal.beside, ..refusal };
    }),
    ("the twin's own twin told", |r| {
        r.twins.told = |frame, refusal| {
            let twin = frame.twins.get(refusal.beside as usize);
            Refusal { beside: twin.copied().unwrap_or(refusal.beside), ..refusal }
        };
    }),
    ("the third field left out where it is 0", |r| {
        r.fields = |refusal| {
            let mut fields = fields(refusal);
            fields.truncate(if refusal.beside == 0 { 2 } else { 3 });
            fields
        };
    }),
    ("a third field of every refusal", |r| {
        r.fields = |refusal| vec![refusal.row, refusal.place, refusal.beside];
    }),
];

#[test]
fn the_rules_are_right() {
    for (name, cases) in vectors() {
        for (case, line) in cases {
            assert_eq!(RIGHT.line(&case), line, "{name}: {:?}", case.frame);
        }
    }
}

#[test]
fn every_mistake_is_told() {
    for (name, cases) in vectors() {
        println!("{name}");
        each_is_told(|| RIGHT, &MISTAKES, &cases, Rules::line);
    }
}
