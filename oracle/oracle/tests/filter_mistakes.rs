// Mistakes in the filters: each gives another answer to some of the filter vectors.

mod common {
    pub mod division;
    pub mod mistakes;
}

use common::division::{Division, DIVISION};
use common::mistakes::{each_is_told, Mistake};
use oracle::vectors::filters::{filter_cases, Case};
use oracle::vectors::{moved, OverQuads, Vector};

type Quad = [u32; 4];
type Sides = [f32; 4];

/// The filters' rules, each of which can be got wrong.
struct Rules {
    most_incidence: u32,
    illegal_corners: usize,
    ratio_first: bool,
    length: fn(f32, f32) -> f32,
    uneven: fn(Sides, f32) -> bool,
    joined: fn(&Quad, &Quad) -> bool,
    /// The groups are of the quads that so many filters have left.
    groups_after: usize,
    sides: fn(&[Quad]) -> Vec<(u32, u32)>,
    /// The lengths that have a group's median, of those of every group and the group's number.
    run: fn(&[Vec<f32>], usize) -> Vec<f32>,
    middle: fn(&[f32]) -> f32,
    zero_keeps: bool,
    skipped: fn(f32, f32) -> bool,
    short: fn(f32, f32, f32) -> bool,
    long: fn(f32, f32, f32) -> bool,
    sides_judged: usize,
}

fn ends(quad: &Quad) -> [(u32, u32); 4] {
    [0, 1, 2, 3].map(|k| (quad[k], quad[(k + 1) % 4]))
}

fn share_a_side(p: &Quad, q: &Quad) -> bool {
    ends(p).iter().any(|&(a, b)| ends(q).contains(&(a, b)) || ends(q).contains(&(b, a)))
}

/// The ratio of two sides, the lesser raised to a number at least.
fn raised(a: f32, b: f32, tiny: f32) -> f32 {
    a.max(b) / a.min(b).max(tiny)
}

fn ratio(a: f32, b: f32) -> f32 {
    raised(a, b, 1e-6)
}

fn uneven([a, b, c, d]: Sides, limit: f32, tiny: f32) -> bool {
    raised(a, c, tiny) > limit || raised(b, d, tiny) > limit
}

/// The length at a place in order.
fn at(run: &[f32], place: usize) -> f32 {
    let mut sorted = run.to_vec();
    sorted.sort_by(f32::total_cmp);
    sorted[place]
}

fn median(run: &[f32]) -> f32 {
    at(run, run.len() / 2)
}

const RIGHT: Rules = Rules {
    most_incidence: 8,
    illegal_corners: 2,
    ratio_first: false,
    length: |dx, dy| (dx * dx + dy * dy).sqrt(),
    uneven: |sides, limit| uneven(sides, limit, 1e-6),
    joined: share_a_side,
    groups_after: 2,
    sides: |group| group.iter().flat_map(ends).collect(),
    run: |runs, own| runs[own].clone(),
    middle: median,
    zero_keeps: true,
    skipped: |least, greatest| (least <= 0.0) && !greatest.is_finite(),
    short: |side, least, median| least > 0.0 && side < least * median,
    long: |side, greatest, median| greatest.is_finite() && side > greatest * median,
    sides_judged: 4,
};

impl Rules {
    fn between(&self, case: &Case, (a, b): (u32, u32)) -> f32 {
        let (x, y) = (&case.frame.x, &case.frame.y);
        (self.length)(x[b as usize] - x[a as usize], y[b as usize] - y[a as usize])
    }

    fn uncrowded(&self, quads: &[Quad]) -> Vec<Quad> {
        let incidence = |c: u32| 2 * quads.iter().filter(|q| q.contains(&c)).count() as u32;
        let illegal = |q: &Quad| q.iter().filter(|&&c| incidence(c) > self.most_incidence).count();
        quads.iter().copied().filter(|q| illegal(q) < self.illegal_corners).collect()
    }

    fn even(&self, case: &Case, quads: &[Quad]) -> Vec<Quad> {
        let sides = |q: &Quad| ends(q).map(|side| self.between(case, side));
        let limit = case.frame.params.ratio;
        quads.iter().copied().filter(|q| !(self.uneven)(sides(q), limit)).collect()
    }

    /// The groups, each in rising order, by their lowest quads.
    fn groups(&self, quads: &[Quad]) -> Vec<Vec<usize>> {
        let (mut left, mut groups) = ((0..quads.len()).collect::<Vec<_>>(), Vec::new());
        while !left.is_empty() {
            let mut group = vec![left.remove(0)];
            let mut next = 0;
            while let Some(&p) = group.get(next) {
                let joined = |&mut q: &mut usize| (self.joined)(&quads[p], &quads[q]);
                group.extend(left.extract_if(.., joined));
                next += 1;
            }
            group.sort();
            groups.push(group);
        }
        groups
    }

    /// The median of each quad's group.
    fn medians(&self, case: &Case, quads: &[Quad]) -> Vec<f32> {
        let groups = self.groups(quads);
        let run = |group: &Vec<usize>| -> Vec<f32> {
            let members: Vec<Quad> = group.iter().map(|&q| quads[q]).collect();
            (self.sides)(&members).iter().map(|&side| self.between(case, side)).collect()
        };
        let runs: Vec<Vec<f32>> = groups.iter().map(run).collect();
        let mut medians = vec![0.0; quads.len()];
        for (own, group) in groups.iter().enumerate() {
            let median = (self.middle)(&(self.run)(&runs, own));
            group.iter().for_each(|&q| medians[q] = median);
        }
        medians
    }

    fn fits(&self, case: &Case, quad: &Quad, median: f32) -> bool {
        let params = &case.frame.params;
        if median == 0.0 && self.zero_keeps {
            return true;
        }
        let own = ends(quad).map(|side| self.between(case, side));
        !own[..self.sides_judged].iter().any(|&side| {
            (self.short)(side, params.least, median) || (self.long)(side, params.greatest, median)
        })
    }

    fn kept(&self, case: &Case) -> Vec<Quad> {
        let input = case.records();
        let first = match self.ratio_first {
            true => self.even(case, &input),
            false => input.clone(),
        };
        let legal = self.uncrowded(&first);
        let even = self.even(case, &legal);
        if (self.skipped)(case.frame.params.least, case.frame.params.greatest) {
            return even;
        }
        let others = [&input, &legal, &even][self.groups_after];
        let medians = self.medians(case, others);
        let median =
            |quad: &Quad| others.iter().position(|q| q == quad).map_or(0.0, |q| medians[q]);
        even.iter().copied().filter(|q| self.fits(case, q, median(q))).collect()
    }
}

/// Cases that the call answers, with the answers; the largest would take too long.
fn accepted() -> Vec<(Case, Vec<u32>)> {
    let mut found = Vec::new();
    for case in filter_cases().into_iter().filter(|case| case.quads.len() < 4_000) {
        let told = case.answer();
        if let Ok([count]) = told.result {
            found.push((case, told.lists[1][..4 * count].to_vec()));
        }
    }
    found
}

const CROWDS_AND_RATIOS: [Mistake<Rules>; 17] = [
    ("four quads are illegal", |r| r.most_incidence = 7),
    ("five quads are legal", |r| r.most_incidence = 10),
    ("one illegal corner drops", |r| r.illegal_corners = 1),
    ("two illegal corners stay", |r| r.illegal_corners = 3),
    ("incidence after the ratio", |r| r.ratio_first = true),
    ("ratio below the limit", |r| {
        r.uneven = |[a, b, c, d], limit| ratio(a, c) >= limit || ratio(b, d) >= limit
    }),
    ("first pair only", |r| r.uneven = |[a, _, c, _], limit| ratio(a, c) > limit),
    ("second pair only", |r| r.uneven = |[_, b, _, d], limit| ratio(b, d) > limit),
    ("the better ratio", |r| {
        r.uneven = |[a, b, c, d], limit| ratio(a, c) > limit && ratio(b, d) > limit
    }),
    ("adjacent sides", |r| {
        r.uneven = |[a, b, c, d], limit| ratio(a, b) > limit || ratio(c, d) > limit
    }),
    ("the greater is raised too", |r| {
        r.uneven = |[a, b, c, d], limit| {
            let up = |x: f32| x.max(1e-6);
            ratio(up(a), up(c)) > limit || ratio(up(b), up(d)) > limit
        }
    }),
    ("nothing is raised", |r| {
        r.uneven = |[a, b, c, d], limit| {
            let plain = |a: f32, b: f32| a.max(b) / a.min(b);
            plain(a, c) > limit || plain(b, d) > limit
        }
    }),
    ("raised to the float below 1e-6", |r| {
        r.uneven = |sides, limit| uneven(sides, limit, moved(1e-6, -1));
    }),
    ("raised to the float above 1e-6", |r| {
        r.uneven = |sides, limit| uneven(sides, limit, moved(1e-6, 1));
    }),
    ("raised to 1e-6 below the next float", |r| {
        r.uneven = |[a, b, c, d], limit| {
            let up = |x: f32| if x <= moved(1e-6, 1) { 1e-6 } else { x };
            let ratio = |a: f32, b: f32| a.max(b) / up(a.min(b));
            ratio(a, c) > limit || ratio(b, d) > limit
        }
    }),
    ("a product for the quotient", |r| {
        r.uneven = |[a, b, c, d], limit| {
            let over = |a: f32, b: f32| a.max(b) > limit * a.min(b).max(1e-6);
            over(a, c) || over(b, d)
        }
    }),
    ("the first over the second", |r| {
        r.uneven = |[a, b, c, d], limit| a / c.max(1e-6) > limit || b / d.max(1e-6) > limit
    }),
];

const LENGTHS_AND_GROUPS: [Mistake<Rules>; 11] = [
    ("a root of the exact sum", |r| r.length = |dx, dy| f64::from(dx).hypot(f64::from(dy)) as f32),
    ("a fused sum", |r| r.length = |dx, dy| dx.mul_add(dx, dy * dy).sqrt()),
    ("the squared length", |r| r.length = |dx, dy| dx * dx + dy * dy),
    ("a length in steps", |r| r.length = |dx, dy| dx.abs() + dy.abs()),
    ("subnormal sums are 0", |r| {
        r.length = |dx, dy| {
            let sum = dx * dx + dy * dy;
            if sum < f32::MIN_POSITIVE {
                0.0
            } else {
                sum.sqrt()
            }
        }
    }),
    ("groups of the input", |r| r.groups_after = 0),
    ("groups before the ratio", |r| r.groups_after = 1),
    ("sides run in opposite senses", |r| {
        r.joined = |p, q| ends(p).iter().any(|&(a, b)| ends(q).contains(&(b, a)))
    }),
    ("sides run alike", |r| r.joined = |p, q| ends(p).iter().any(|side| ends(q).contains(side))),
    ("a corner in common", |r| r.joined = |p, q| p.iter().any(|c| q.contains(c))),
    ("one group", |r| r.joined = |_, _| true),
];

const SIZES: [Mistake<Rules>; 17] = [
    ("each quad a group", |r| r.joined = |_, _| false),
    ("shared sides once", |r| {
        r.sides = |group| {
            let ordered = |&(a, b): &(u32, u32)| (a.min(b), a.max(b));
            let all = group.iter().flat_map(ends).collect::<Vec<_>>();
            let once: std::collections::BTreeSet<_> = all.iter().map(ordered).collect();
            once.into_iter().collect()
        }
    }),
    ("the lower middle", |r| r.middle = |run| at(run, (run.len() - 1) / 2)),
    ("the mean of the middle two", |r| {
        r.middle = |run| (at(run, run.len() / 2 - 1) + median(run)) / 2.0
    }),
    ("the one after the middle", |r| r.middle = |run| at(run, run.len() / 2 + 1)),
    ("the mean", |r| r.middle = |run| run.iter().sum::<f32>() / run.len() as f32),
    ("a median of 0 judges", |r| r.zero_keeps = false),
    ("never skipped, with a greatest that may be infinite", |r| {
        r.skipped = |_, _| false;
        r.long = |side, greatest, median| side > greatest * median;
    }),
    ("skipped where one is inactive", |r| {
        r.skipped = |least, greatest| least <= 0.0 || !greatest.is_finite()
    }),
    ("a greatest of minus infinity judges", |r| {
        r.skipped = |least, greatest| least <= 0.0 && greatest == f32::INFINITY;
        r.long = |side, greatest, median| greatest < f32::INFINITY && side > greatest * median;
    }),
    ("an infinite least is inactive", |r| {
        r.short = |side, least, median| least > 0.0 && least.is_finite() && side < least * median
    }),
    ("a negative greatest is inactive", |r| {
        r.long = |side, greatest, median| {
            greatest.is_finite() && greatest >= 0.0 && side > greatest * median
        }
    }),
    ("short at equality", |r| {
        r.short = |side, least, median| least > 0.0 && side <= least * median
    }),
    ("long at equality", |r| {
        r.long = |side, greatest, median| greatest.is_finite() && side >= greatest * median
    }),
    ("a quotient for the least's product", |r| {
        r.short = |side, least, median| least > 0.0 && side / median < least
    }),
    ("a quotient for the greatest's product", |r| {
        r.long = |side, greatest, median| greatest.is_finite() && side / median > greatest
    }),
    ("three sides of four judged", |r| r.sides_judged = 3),
];

/// The lengths of a group and some of its neighbour's, if it has one.
fn with_next(runs: &[Vec<f32>], own: usize, more: usize) -> Vec<f32> {
    let next = runs.get(own + 1).map_or(&[][..], |next| &next[..more]);
    [&runs[own], next].concat()
}

/// All but the lengths of one quad, where a group has several.
fn short_of(run: &[f32], left_out: std::ops::Range<usize>) -> Vec<f32> {
    let kept = |place: &usize| run.len() == 4 || !left_out.contains(place);
    (0..run.len()).filter(kept).map(|place| run[place]).collect()
}

const RUNS: [Mistake<Rules>; 9] = [
    ("the first of the run", |r| r.middle = |run| run[0]),
    ("the last of the run", |r| r.middle = |run| run[run.len() - 1]),
    ("the middle of the run as it stands", |r| r.middle = |run| run[run.len() / 2]),
    ("the median of the next group", |r| {
        r.run = |runs, own| runs.get(own + 1).unwrap_or(&runs[own]).clone()
    }),
    ("the median of the group before", |r| r.run = |runs, own| runs[own.saturating_sub(1)].clone()),
    ("a run without its first quad", |r| r.run = |runs, own| short_of(&runs[own], 0..4)),
    ("a run without its last quad", |r| {
        r.run = |runs, own| short_of(&runs[own], runs[own].len() - 4..runs[own].len())
    }),
    ("a run with the next word", |r| r.run = |runs, own| with_next(runs, own, 1)),
    ("a run with the next quad", |r| r.run = |runs, own| with_next(runs, own, 4)),
];

const DIVISIONS: [Mistake<Rules>; 11] = [
    ("the middle of the range", |r| {
        r.middle = |run| {
            let (least, greatest) = (at(run, 0).to_bits(), at(run, run.len() - 1).to_bits());
            f32::from_bits((least + greatest) / 2)
        }
    }),
    ("ends with 256 words, the lowest", |r| {
        r.middle = |run| Division { last: 256, ..DIVISION }.middle(run)
    }),
    ("ends with 256 words, the highest", |r| {
        r.middle = |run| Division { last: 256, end: |_, high| high, ..DIVISION }.middle(run)
    }),
    ("ends with two words, the lower", |r| {
        r.middle = |run| Division { last: 2, ..DIVISION }.middle(run)
    }),
    ("ends with two words, the higher", |r| {
        r.middle = |run| Division { last: 2, end: |_, high| high, ..DIVISION }.middle(run)
    }),
    ("a range's middle in the upper side", |r| {
        r.middle = |run| Division { low: |word, middle| word < middle, ..DIVISION }.middle(run)
    }),
    ("a place past the lower side in it", |r| {
        r.middle = |run| Division { inside: |place, count| place <= count, ..DIVISION }.middle(run)
    }),
    ("a place in the upper side from the start", |r| {
        r.middle = |run| Division { rest: |place, _| place, ..DIVISION }.middle(run)
    }),
    ("the highest bit that a length has left out", |r| {
        r.middle = |run| {
            let mut sorted = run.to_vec();
            sorted.sort_by_key(|length| length.to_bits() & 0x3FFF_FFFF);
            sorted[sorted.len() / 2]
        }
    }),
    ("a float below", |r| r.middle = |run| f32::from_bits(median(run).to_bits().saturating_sub(1))),
    ("a float above", |r| r.middle = |run| moved(median(run), 1)),
];

#[test]
fn the_rules_are_right() {
    for (case, kept) in accepted() {
        assert_eq!(RIGHT.kept(&case).concat(), kept);
        let divided = Rules { middle: |run| DIVISION.middle(run), ..RIGHT };
        assert_eq!(divided.kept(&case).concat(), kept);
    }
}

#[test]
fn every_mistake_is_told() {
    let mistakes =
        [&CROWDS_AND_RATIOS[..], &LENGTHS_AND_GROUPS, &SIZES, &RUNS, &DIVISIONS].concat();
    each_is_told(|| RIGHT, &mistakes, &accepted(), |rules, case| rules.kept(case).concat());
}
