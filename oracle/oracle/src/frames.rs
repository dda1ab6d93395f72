// Frames for long comparisons of the whole call: `drawn(seed, i)` is frame number i of a run with the
// lists it lends, `full_twins()` are some full ones; `expected(&case)` is what the call must tell and leave,
// the stages between, and the unchanged Rust's answer with whether document 01 owes equality with it.

use std::collections::HashSet;

use crate::calls::{answer_frame, judge_frame};
use crate::compare::{frame_of, give_rule};
use crate::generate::cuts::{cuts, large_cuts};
use crate::generate::{damage::damage, torus, KINDS};
use crate::judge::{judge, Refusal, MOST_CORNERS, MOST_HALF_EDGES};
use crate::near::{scope, Scope};
use crate::random::Random;
use crate::told::Told;
use crate::vectors::frames::{lend, Case};
use frame::{Component, Frame, Stages, NONE};

/// A frame of a run, with the name of its kind, "damaged" and "cut" among them.
#[derive(Clone, Debug)]
pub struct Drawn {
    pub kind: &'static str,
    pub case: Case,
}

/// The stages of a frame that the rows before 8 let pass, as words of lists.
#[derive(Clone, Debug, PartialEq, Eq)]
pub struct Between {
    /// A class for each half-edge.
    pub classes: Vec<u32>,
    /// Four corners for each quad made.
    pub quads: Vec<u32>,
    /// For each quad made 0 where it is kept, or the number of the filter that drops it.
    pub marks: Vec<u32>,
}

/// What the unchanged Rust gives, and the two readings of "no near case occurs". It has rule 1 of
/// spreads alone, and document 02 owes equality by that one only; by rule 2 it is given NaN for each
/// missing spread, so that it can be compared there too.
#[derive(Clone, Debug)]
pub struct Unchanged {
    pub between: Between,
    pub told: Told<2, 3>,
    pub scope: Scope,
}

/// All that is expected of a case. The stages are those of frames that the rows before 8 let pass,
/// whatever the lists that are lent.
#[derive(Clone, Debug)]
pub struct Expected {
    pub told: Told<2, 3>,
    pub between: Option<Between>,
    pub unchanged: Option<Unchanged>,
}

/// One frame in so many has as many corners and half-edges as the limits allow.
const FULL: usize = 500;

/// Of those one in so many is damaged.
const FULL_DAMAGED: usize = 10;

/// One in so many is of sheets with parts cut out, and one in `FULL` is a large one of those.
const CUT: usize = 6;

/// A grid that is closed both ways and has as many corners and half-edges as there may be, each
/// corner moved by up to a drawn reach.
fn full(random: &mut Random) -> (&'static str, Frame) {
    let mut frame = torus(MOST_CORNERS, random);
    let reach = random.pick(&[0.0, 0.0, 0.5, 2.0]);
    let places = frame.x.iter_mut().chain(&mut frame.y);
    places.for_each(|place| *place += random.within(-reach, reach) as f32);
    if !random.one_in(FULL_DAMAGED) {
        return ("torus", frame);
    }
    let row = random.between(1, 7) as u32;
    damage(row, &mut frame, random);
    ("damaged", frame)
}

/// Frame number `number` of a run: all kinds in turn, of many sizes, the last of each turn damaged,
/// at times a full one, now and then sheets with parts cut out; a third by rule 2 of spreads, at
/// times a number that is no rule; workspace and room mostly enough, at times short.
pub fn drawn(seed: u64, number: usize) -> Drawn {
    let mut random = Random::part(!seed, number as u64);
    let own = if number % FULL == FULL - 1 {
        Some(full(&mut random))
    } else if number % FULL == FULL / 2 - 1 {
        Some(("cut", large_cuts(&mut random)))
    } else if number % CUT == CUT / 2 {
        let corners = random.pick(&[60, 120, 120, 400]);
        Some(("cut", cuts(corners, &mut random)))
    } else {
        None
    };
    let (kind, frame) = match own {
        Some((kind, mut frame)) => {
            give_rule(&mut frame, seed, number);
            (kind, frame)
        }
        None => {
            let (place, frame, _) = frame_of(seed, number);
            (KINDS.get(place).map_or("damaged", |kind| kind.0), frame)
        }
    };
    Drawn { kind, case: lend(frame, &mut random) }
}

/// The last half-edge that there may be.
const LAST: u32 = MOST_HALF_EDGES as u32 - 1;

/// Twins of a full frame: half-edge, twin, and the row that refuses it.
const FULL_TWINS: [[u32; 3]; 8] = [
    [0, LAST, 11],
    [0, LAST + 1, 7],
    [0, NONE - 1, 7],
    [LAST, 0, 11],
    [LAST, LAST - 1, 11],
    [LAST, LAST, 12],
    [LAST, LAST + 1, 7],
    [LAST, NONE - 1, 7],
];

/// A closed grid with as many corners and half-edges as there may be, of which the last is a twin;
/// then the same with another twin of its first or last half-edge, whose own twin has none instead.
/// Each with what the rows before 8 say of it.
pub fn full_twins() -> Vec<(Case, Option<Refusal>)> {
    let sound = torus(MOST_CORNERS, &mut Random::new(0));
    let with = |[place, beside, row]: [u32; 3]| {
        let mut frame = sound.clone();
        let old = std::mem::replace(&mut frame.twins[place as usize], beside);
        frame.twins[old as usize] = NONE;
        (Case::of(frame), Some(Refusal { row, place, beside }))
    };
    let refused = FULL_TWINS.map(with);
    [(Case::of(sound), None)].into_iter().chain(refused).collect()
}

/// Equal quads meet the same fate, so that a quad is kept where its words are.
fn marks(stages: &Stages) -> Vec<u32> {
    let kept: [HashSet<&[u32; 4]>; 3] =
        [&stages.topology, &stages.geometry, &stages.scale].map(|list| list.iter().collect());
    let dropped_by = |quad| kept.iter().position(|kept| !kept.contains(quad));
    stages.quads.iter().map(|quad| dropped_by(quad).map_or(0, |place| place as u32 + 1)).collect()
}

impl Between {
    fn of(stages: &Stages) -> Between {
        let (classes, quads) = (stages.classes.clone(), stages.quads.concat());
        Between { classes, quads, marks: marks(stages) }
    }
}

/// What the call tells and leaves where a run found these components.
fn told(case: &Case, found: &[Component]) -> Told<2, 3> {
    Told::by(case.lent(), |[work, components, entries]| match judge_frame(&case.frame, work) {
        Some(refusal) => Err(refusal),
        None => answer_frame(found, work, components, entries),
    })
}

/// Runs both builds on a case.
pub fn expected(case: &Case) -> Expected {
    let frame = &case.frame;
    if judge(frame).is_some() {
        return Expected { told: told(case, &[]), between: None, unchanged: None };
    }
    let (ruled, plain) = (ruled::run(frame), plain::run(frame));
    let unchanged = Unchanged {
        between: Between::of(&plain),
        told: told(case, &plain.components),
        scope: scope(frame, &plain),
    };
    let between = Some(Between::of(&ruled));
    Expected { told: told(case, &ruled.components), between, unchanged: Some(unchanged) }
}
