// Mistakes in the labelling: each gives another answer to some of the label vectors.

mod common {
    pub mod holes;
    pub mod mistakes;
}

use common::holes::{self, Sheet};
use common::mistakes::{each_is_told, Mistake};
use oracle::vectors::labels::{hole_cases, label_cases, Case};
use oracle::vectors::{OverQuads, Vector};
use std::collections::{BTreeMap, HashMap};

type Quad = [u32; 4];
type Pair = (i32, i32);
type Sides = [(u32, u32); 4];
/// Each claimed pair with its corners, lowest first.
type Claims = BTreeMap<Pair, Vec<u32>>;

/// The labelling's rules, each of which can be got wrong.
struct Rules {
    joined: fn(&Sides, &Sides) -> bool,
    seed: fn(&[usize]) -> usize,
    start: [Pair; 4],
    turn: fn(Pair) -> Pair,
    /// Whether a reached corner may have two labels, of which the first counts.
    first_label: bool,
    /// What the least quads is held against, of the group and of its reached quads.
    size: fn(usize, usize) -> usize,
    alone: fn(&[u32]) -> bool,
    /// What the least corners is held against, of the lone and of the reached corners.
    corners: fn(usize, usize) -> usize,
    enough: fn(usize, u32) -> bool,
    /// Minima over all reached corners and not the lone ones.
    shift_all: bool,
    key: fn(&(Pair, u32)) -> (i32, i32, u32),
    /// The holes of a component (tests/hole_mistakes.rs has more that can be got wrong in them).
    holes: fn(Sheet) -> u32,
    keep_empty: bool,
    before: bool,
}

fn sides(quad: &Quad) -> Sides {
    [0, 1, 2, 3].map(|k| (quad[k], quad[(k + 1) % 4]))
}

fn opposite(p: &Sides, q: &Sides) -> bool {
    p.iter().any(|&(a, b)| q.contains(&(b, a)))
}

fn alike(p: &Sides, q: &Sides) -> bool {
    p.iter().any(|side| q.contains(side))
}

const RIGHT: Rules = Rules {
    joined: |p, q| opposite(p, q) || alike(p, q),
    seed: |group| group[0],
    start: [(0, 0), (1, 0), (1, 1), (0, 1)],
    turn: |(x, y)| (-y, x),
    first_label: false,
    size: |group, _| group,
    alone: |corners| corners.len() == 1,
    corners: |lone, _| lone,
    enough: |count, least| count >= least as usize,
    shift_all: false,
    key: |&((u, v), corner)| (u, v, corner),
    holes: |sheet| holes::RIGHT.answer(&[sheet])[0],
    keep_empty: true,
    before: true,
};

impl Rules {
    /// The groups by their lowest quads.
    fn groups(&self, quads: &[Quad]) -> Vec<Vec<usize>> {
        let sides: Vec<Sides> = quads.iter().map(sides).collect();
        let mut done = vec![false; quads.len()];
        let mut groups = Vec::new();
        for q in 0..quads.len() {
            let mut group = Vec::new();
            let mut todo = if done[q] { Vec::new() } else { vec![q] };
            done[q] = true;
            while let Some(p) = todo.pop() {
                group.push(p);
                let next = |&r: &usize| !done[r] && (self.joined)(&sides[p], &sides[r]);
                let met: Vec<usize> = (0..quads.len()).filter(next).collect();
                met.iter().for_each(|&r| done[r] = true);
                todo.extend(met);
            }
            group.sort_unstable();
            groups.push(group);
        }
        groups.retain(|group| !group.is_empty());
        groups
    }

    /// The labels of a quad from one that it shares a side with, run the other way.
    fn across(&self, p: &Quad, labels: &[Pair; 4], q: &Quad) -> Option<[Pair; 4]> {
        let own = sides(q);
        let k = sides(p).iter().position(|&(a, b)| own.contains(&(b, a)))?;
        let (a, b) = sides(p)[k];
        let j = own.iter().position(|&side| side == (b, a))?;
        let (from, to) = (labels[(k + 1) % 4], labels[k]);
        let step = (to.0 - from.0, to.1 - from.1);
        let turned = (self.turn)(step);
        let far = (to.0 + turned.0, to.1 + turned.1);
        let mut found = [from, to, far, (far.0 - step.0, far.1 - step.1)];
        found.rotate_right(j);
        Some(found)
    }

    /// The reached quads with the labels of their corners.
    fn reached(&self, quads: &[Quad], group: &[usize]) -> Vec<(Quad, [Pair; 4])> {
        let first = (self.seed)(group);
        let mut rest: Vec<Quad> =
            group.iter().filter(|&&q| q != first).map(|&q| quads[q]).collect();
        let mut found = vec![(quads[first], self.start)];
        let mut next = 0;
        while next < found.len() {
            let (p, labels) = found[next];
            rest.retain(|q| match self.across(&p, &labels, q) {
                Some(own) => {
                    found.push((*q, own));
                    false
                }
                None => true,
            });
            next += 1;
        }
        found
    }

    /// One label for each reached corner, if each has one.
    fn labels(&self, reached: &[(Quad, [Pair; 4])]) -> Option<HashMap<u32, Pair>> {
        let mut labels = HashMap::new();
        for (quad, own) in reached {
            for (corner, pair) in quad.iter().zip(own) {
                if *labels.entry(*corner).or_insert(*pair) != *pair && !self.first_label {
                    return None;
                }
            }
        }
        Some(labels)
    }

    /// The entries of a component and its holes.
    fn component(&self, labels: &HashMap<u32, Pair>, least: u32) -> Option<(Vec<[u32; 3]>, u32)> {
        let mut claims = Claims::new();
        labels.iter().for_each(|(&corner, &pair)| claims.entry(pair).or_default().push(corner));
        claims.values_mut().for_each(|corners| corners.sort_unstable());
        let listed = claims.iter().filter(|(_, corners)| (self.alone)(corners));
        let mut lone: Vec<(Pair, u32)> =
            listed.map(|(&pair, corners)| (pair, corners[0])).collect();
        let dropped = lone.is_empty() && !self.keep_empty;
        if dropped || !(self.enough)((self.corners)(lone.len(), labels.len()), least) {
            return None;
        }
        let shown: Vec<Pair> = lone.iter().map(|&(pair, _)| pair).collect();
        let over: Vec<Pair> =
            if self.shift_all { labels.values().copied().collect() } else { shown };
        let lowest = |of: fn(&Pair) -> i32| over.iter().map(of).min().unwrap_or(0);
        let (u0, v0) = (lowest(|p| p.0), lowest(|p| p.1));
        let shifted = |pair: &Pair| (pair.0 - u0, pair.1 - v0);
        lone.iter_mut().for_each(|(pair, _)| *pair = shifted(pair));
        lone.sort_by_key(self.key);
        let listed = lone.iter().map(|&(pair, _)| pair).collect();
        let several = claims.iter().filter(|(_, corners)| corners.len() > 1);
        let contested = several.map(|(pair, _)| shifted(pair)).collect();
        let holes = (self.holes)(Sheet { listed, contested });
        Some((lone.iter().map(|&((u, v), c)| [u as u32, v as u32, c]).collect(), holes))
    }

    /// The words of the components and of the entries.
    fn answer(&self, case: &Case) -> [Vec<u32>; 2] {
        let quads = case.records();
        let (mut records, mut entries) = (Vec::new(), Vec::new());
        for group in self.groups(&quads) {
            let reached = self.reached(&quads, &group);
            if (self.size)(group.len(), reached.len()) < case.least_quads as usize {
                continue;
            }
            let labels = self.labels(&reached);
            let found = labels.and_then(|labels| self.component(&labels, case.least_corners));
            if let Some((listed, holes)) = found {
                let start = if self.before { entries.len() / 3 } else { records.len() / 3 };
                records.extend([start as u32, listed.len() as u32, holes]);
                entries.extend(listed.concat());
            }
        }
        [records, entries]
    }
}

/// Cases that the call answers, with the answers; the largest would take too long.
fn accepted() -> Vec<(Case, [Vec<u32>; 2])> {
    let mut found = Vec::new();
    let cases = label_cases().into_iter().chain(hole_cases());
    for case in cases.filter(|case| case.quads.len() < 4_000) {
        let told = case.answer();
        if let Ok([k, l]) = told.result {
            let [_, components, entries] = told.lists;
            found.push((case, [components[..3 * k].to_vec(), entries[..3 * l].to_vec()]));
        }
    }
    found
}

const MISTAKES: [Mistake<Rules>; 22] = [
    ("groups across sides run alike only", |r| r.joined = alike),
    ("groups across sides run in opposite senses only", |r| r.joined = opposite),
    ("all quads one group", |r| r.joined = |_, _| true),
    ("the highest quad first", |r| r.seed = |group| group[group.len() - 1]),
    ("the first quad the other way round", |r| r.start = [(0, 0), (0, 1), (1, 1), (1, 0)]),
    ("the first quad begun at its second corner", |r| r.start.rotate_left(1)),
    ("the other turn", |r| r.turn = |(x, y)| (y, -x)),
    ("no turn", |r| r.turn = |step| step),
    ("the first of two labels stays", |r| r.first_label = true),
    ("only reached quads counted", |r| r.size = |_, reached| reached),
    ("more than the least quads", |r| r.size = |group, _| group - 1),
    ("a third claimant wins", |r| r.alone = |corners| corners.len() % 2 == 1),
    ("the lowest claimant wins", |r| r.alone = |_| true),
    ("all reached corners counted", |r| r.corners = |_, reached| reached),
    ("more than the least corners", |r| r.enough = |count, least| count > least as usize),
    ("a shift by all reached corners", |r| r.shift_all = true),
    ("entries by v, then u", |r| r.key = |&((u, v), corner)| (v, u, corner)),
    ("entries by corner", |r| r.key = |&(_, corner)| (corner as i32, 0, 0)),
    ("every place without a corner a hole", |r| {
        r.holes = |sheet| {
            let (u, v) = sheet.most();
            ((u + 1) * (v + 1)) as u32 - sheet.listed.len() as u32
        }
    }),
    ("pairs claimed twice are no holes", |r| {
        r.holes = |Sheet { listed, contested }| {
            let all = Sheet { listed: [listed, contested].concat(), contested: Vec::new() };
            holes::RIGHT.answer(&[all])[0]
        }
    }),
    ("empty components dropped", |r| r.keep_empty = false),
    ("components counted for the entries before", |r| r.before = false),
];

#[test]
fn the_rules_are_right() {
    for (case, lists) in accepted() {
        assert_eq!(RIGHT.answer(&case), lists, "{case:?}");
    }
}

#[test]
fn every_mistake_is_told() {
    each_is_told(|| RIGHT, &MISTAKES, &accepted(), Rules::answer);
}
