// Runs both builds on generated frames, side by side, and counts where they part; and holds
// the documents' words against the ruled build.

use crate::calls::fits;
use crate::demand::fates;
use crate::generate::{damage::damage, silence::draw_rule, size, KINDS};
use crate::judge::{judge, Refusal};
use crate::near::{scope, Scope};
use crate::random::Random;
use crate::{text, words};
use frame::{Frame, Stages};

/// The stages that are compared, in order.
pub const STAGES: [&str; 7] =
    ["axes", "classes", "quads", "topology", "opposing", "size", "components"];

/// The counts of one kind of frame.
#[derive(Clone, Debug, Default)]
pub struct Row {
    pub frames: usize,
    pub refused: usize,
    pub quads: usize,
    pub dropped: [usize; 3],
    pub components: usize,
    pub letter: usize,
    pub narrow: usize,
    pub differ_letter: usize,
    pub differ_narrow: usize,
    pub differ_outside: usize,
}

/// A frame on which two runs part.
#[derive(Clone, Debug)]
pub struct Difference {
    pub number: usize,
    pub kind: &'static str,
    pub stage: &'static str,
    pub letter: bool,
    pub half_edges: usize,
    pub text: Option<String>,
}

#[derive(Clone, Debug, Default)]
pub struct Table {
    pub rows: Vec<(&'static str, Row)>,
    /// How often each stage was the first to part, in scope or not.
    pub first: [usize; 7],
    pub in_scope: Option<Difference>,
    /// Frames on which the builds part in their components, and so in the program's answer.
    pub answers: usize,
    /// Of those that are out of both scopes, the one with fewest half-edges.
    pub smallest_outside: Option<Difference>,
    /// Refusals that were not the one the damage called for.
    pub wrong_refusals: usize,
    /// Frames on which document 01's words were run beside the ruled build.
    pub worded: usize,
    /// Those on which the two part, and the first of them.
    pub worded_differ: usize,
    /// Their groups after the third filter: too few quads, no labelling, too few lone, kept.
    pub fates: [usize; 4],
    pub worded_first: Option<Difference>,
    /// Accepted frames by rule 2, and those of which the components are others by rule 1.
    pub by_rule_2: [usize; 2],
}

/// What is compared.
pub struct Sides {
    pub judge: fn(&Frame) -> Option<Refusal>,
    pub plain: fn(&Frame) -> Stages,
    pub ruled: fn(&Frame) -> Stages,
    pub words: fn(&Frame) -> Stages,
    /// The words on fits, which only the classes' call has.
    pub fits: fn(&Frame) -> Vec<f32>,
}

pub const SIDES: Sides = Sides {
    judge,
    plain: plain::run,
    ruled: ruled::run,
    words: words::run,
    fits: |frame| words::fits(frame, &words::axes(frame)),
};

/// The words are run only on frames of at most this many quads: they take their time.
const MOST_WORDED: usize = 500;

/// The first stage at which two runs part.
pub fn first_difference(a: &Stages, b: &Stages) -> Option<usize> {
    let axes = a.axes.iter().zip(&b.axes).all(|(a, b)| a.same(b));
    let equal = [
        axes && a.axes.len() == b.axes.len(),
        a.classes == b.classes,
        a.quads == b.quads,
        a.topology == b.topology,
        a.geometry == b.geometry,
        a.scale == b.scale,
        a.components == b.components,
    ];
    equal.iter().position(|same| !same)
}

/// The frame with this number in a run: its kind's place and, where it is refused, what it must get.
pub fn frame_of(seed: u64, number: usize) -> (usize, Frame, Option<Refusal>) {
    let (place, mut frame, damaged) = by_rule_1(seed, number);
    give_rule(&mut frame, seed, number);
    let first = damaged.filter(|refusal| refusal.row <= 3);
    let row_18 = (!matches!(frame.params.spread_rule, 1 | 2)).then_some(Refusal::at(18, 0));
    (place, frame, first.or(row_18).or(damaged))
}

/// Draws the spread rule for the frame with this number, from numbers that nothing else of the
/// frame is drawn from.
pub fn give_rule(frame: &mut Frame, seed: u64, number: usize) {
    draw_rule(frame, &mut Random::part(seed ^ RULES, number as u64));
}

/// Parts the seed of the rules from that of the frames.
const RULES: u64 = 18 << 32;

/// The frame as it is before it is given a rule; for damaged ones, what it must get.
fn by_rule_1(seed: u64, number: usize) -> (usize, Frame, Option<Refusal>) {
    let mut random = Random::part(seed, number as u64);
    let place = number % (KINDS.len() + 1);
    if let Some((_, make)) = KINDS.get(place) {
        let corners = size(&mut random);
        return (place, make(corners, &mut random), None);
    }
    let mut frame = KINDS[random.below(4)].1(30, &mut random);
    if frame.half_edges() == 0 {
        return (place, frame, None);
    }
    let row = 1 + (number / (KINDS.len() + 1) % 7) as u32;
    let refusal = damage(row, &mut frame, &mut random);
    (place, frame, Some(refusal))
}

/// What parts first of the words on a frame and the ruled build: a stage, or the fits.
fn words_part(sides: &Sides, frame: &Frame, ruled: &Stages) -> Option<&'static str> {
    let stage = first_difference(&(sides.words)(frame), ruled).map(|stage| STAGES[stage]);
    let fits = [(sides.fits)(frame), fits(frame)].map(|fits| fits.into_iter().map(f32::to_bits));
    let [by_words, by_ruled] = fits;
    stage.or_else(|| (!by_words.eq(by_ruled)).then_some("fits"))
}

fn difference(
    number: usize,
    kind: &'static str,
    stage: &'static str,
    letter: bool,
    frame: &Frame,
) -> Difference {
    let text = text::fits(frame).then(|| text::write(frame));
    let half_edges = frame.half_edges();
    Difference { number, kind, stage, letter, half_edges, text }
}

impl Row {
    fn count_stages(&mut self, stages: &Stages) {
        self.quads += stages.quads.len();
        self.dropped[0] += stages.quads.len() - stages.topology.len();
        self.dropped[1] += stages.topology.len() - stages.geometry.len();
        self.dropped[2] += stages.geometry.len() - stages.scale.len();
        self.components += stages.components.len();
    }

    fn count_difference(&mut self, scope: Scope) {
        self.differ_letter += scope.letter as usize;
        self.differ_narrow += scope.narrow as usize;
        self.differ_outside += !scope.narrow as usize;
    }
}

impl Table {
    fn new() -> Table {
        let names = KINDS.iter().map(|k| k.0).chain(["damaged"]);
        Table { rows: names.map(|name| (name, Row::default())).collect(), ..Table::default() }
    }

    /// Keeps the first difference in scope, and the smallest out of it that shows in the answer.
    fn keep(&mut self, found: Difference, in_scope: bool, answers: bool) {
        self.answers += answers as usize;
        let smaller = |old: &Difference| found.half_edges < old.half_edges;
        if in_scope {
            self.in_scope.get_or_insert(found);
        } else if answers && self.smallest_outside.as_ref().is_none_or(smaller) {
            self.smallest_outside = Some(found);
        }
    }

    /// Holds the documents' words, as the sides have them, against the ruled build.
    fn add_words(
        &mut self,
        sides: &Sides,
        number: usize,
        kind: &'static str,
        frame: &Frame,
        ruled: &Stages,
    ) {
        if ruled.quads.len() > MOST_WORDED {
            return;
        }
        self.worded += 1;
        for fate in fates(&ruled.scale, frame.params.least_quads, frame.params.least_corners) {
            self.fates[fate.place()] += 1;
        }
        let Some(stage) = words_part(sides, frame, ruled) else {
            return;
        };
        self.worded_differ += 1;
        self.worded_first.get_or_insert_with(|| difference(number, kind, stage, false, frame));
    }

    /// Holds an accepted frame by rule 2 against the same by rule 1.
    fn add_rule(&mut self, frame: &Frame, ruled: &Stages, by: fn(&Frame) -> Stages) {
        if frame.params.spread_rule == 2 {
            let mut other = frame.clone();
            other.params.spread_rule = 1;
            self.by_rule_2[0] += 1;
            self.by_rule_2[1] += (by(&other).components != ruled.components) as usize;
        }
    }

    fn add(&mut self, sides: &Sides, seed: u64, number: usize) {
        let (place, frame, expected) = frame_of(seed, number);
        let refusal = (sides.judge)(&frame);
        self.wrong_refusals += (refusal != expected) as usize;
        let (kind, row) = &mut self.rows[place];
        let kind = *kind;
        row.frames += 1;
        if refusal.is_some() {
            row.refused += 1;
            return;
        }
        let (by_plain, by_ruled) = ((sides.plain)(&frame), (sides.ruled)(&frame));
        let scope = scope(&frame, &by_plain);
        row.count_stages(&by_plain);
        row.letter += scope.letter as usize;
        row.narrow += scope.narrow as usize;
        if let Some(stage) = first_difference(&by_plain, &by_ruled) {
            row.count_difference(scope);
            self.first[stage] += 1;
            let found = difference(number, kind, STAGES[stage], scope.letter, &frame);
            let answers = by_plain.components != by_ruled.components;
            self.keep(found, scope.narrow, answers);
        }
        self.add_words(sides, number, kind, &frame, &by_ruled);
        self.add_rule(&frame, &by_ruled, sides.ruled);
    }

    /// Whether nothing parts that document 01 wants equal.
    pub fn same(&self) -> bool {
        let parted = |(_, row): &(_, Row)| row.differ_letter + row.differ_narrow > 0;
        !self.rows.iter().any(parted) && self.wrong_refusals + self.worded_differ == 0
    }
}

/// The table of a run over `count` frames.
pub fn compare(sides: &Sides, count: u64, seed: u64) -> Table {
    let mut table = Table::new();
    for number in 0..count as usize {
        table.add(sides, seed, number);
    }
    table
}
