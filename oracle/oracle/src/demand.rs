// Document 01's third demand, with document 02's holes, taken at its word and without regard to
// speed: groups, reached quads, the one assignment that fits, lone corners. Shares nothing with the
// original's walk, nor with the count of holes beside it.

use std::collections::HashMap;

use frame::{Component, Entry};

type Quad = [u32; 4];
type Pair = (i32, i32);

/// What becomes of a group, tried in this order.
#[derive(Clone, Debug, PartialEq, Eq)]
pub enum Fate {
    TooFewQuads,
    NoLabelling,
    TooFewCorners,
    Kept(Component),
}

impl Fate {
    /// The fate's place in that order, from 0.
    pub fn place(&self) -> usize {
        match self {
            Fate::TooFewQuads => 0,
            Fate::NoLabelling => 1,
            Fate::TooFewCorners => 2,
            Fate::Kept(_) => 3,
        }
    }
}

fn sides(quad: &Quad) -> [(u32, u32); 4] {
    [0, 1, 2, 3].map(|k| (quad[k], quad[(k + 1) % 4]))
}

/// One quad reaches another across a side that both run, in opposite senses.
fn reaches(p: &Quad, q: &Quad) -> bool {
    sides(p).iter().any(|&(a, b)| sides(q).contains(&(b, a)))
}

/// Neighbours have a side in common, whichever way each runs it.
pub fn neighbours(p: &Quad, q: &Quad) -> bool {
    reaches(p, q) || sides(p).iter().any(|side| sides(q).contains(side))
}

/// All quads that a chain of steps leads to, in rising order.
fn chained(quads: &[Quad], from: usize, step: impl Fn(&Quad, &Quad) -> bool) -> Vec<usize> {
    let mut met = vec![false; quads.len()];
    met[from] = true;
    let mut todo = vec![from];
    while let Some(p) = todo.pop() {
        for q in 0..quads.len() {
            if !met[q] && step(&quads[p], &quads[q]) {
                met[q] = true;
                todo.push(q);
            }
        }
    }
    (0..quads.len()).filter(|&q| met[q]).collect()
}

fn minus(a: Pair, b: Pair) -> Pair {
    (a.0 - b.0, a.1 - b.1)
}

fn plus(a: Pair, b: Pair) -> Pair {
    (a.0 + b.0, a.1 + b.1)
}

/// The labels that go with those of a quad's corners k and k + 1, for the other two.
fn forced(a: Pair, b: Pair) -> [Pair; 2] {
    let step = minus(b, a);
    let c = plus(b, (-step.1, step.0));
    [c, minus(c, step)]
}

fn is_unit(step: Pair) -> bool {
    step.0.abs() + step.1.abs() == 1
}

/// Whether a quad goes round a unit square under the labels found. A corner is left without
/// one only where some side before it is no unit step, and then nothing fits anyway.
fn goes_round(quad: &Quad, labels: &HashMap<u32, Pair>) -> bool {
    let [Some(&a), Some(&b), Some(&c), Some(&d)] = quad.map(|corner| labels.get(&corner)) else {
        return false;
    };
    is_unit(minus(b, a)) && forced(a, b) == [c, d]
}

/// Labels a quad's other two corners from its corners k and k + 1, if these are a unit step apart.
fn force(quad: &Quad, k: usize, labels: &mut HashMap<u32, Pair>) {
    let corner = |i: usize| quad[(k + i) % 4];
    let (Some(&a), Some(&b)) = (labels.get(&corner(0)), labels.get(&corner(1))) else {
        return;
    };
    if is_unit(minus(b, a)) {
        let [c, d] = forced(a, b);
        labels.entry(corner(2)).or_insert(c);
        labels.entry(corner(3)).or_insert(d);
    }
}

/// Gives every corner the first label that some quad forces on it, until no more are forced.
fn spread_labels(quads: &[Quad], labels: &mut HashMap<u32, Pair>) {
    loop {
        let known = labels.len();
        for quad in quads {
            (0..4).for_each(|k| force(quad, k, labels));
        }
        if labels.len() == known {
            return;
        }
    }
}

/// The assignment that fits from the first of the reached quads, if there is one.
fn fitting(reached: &[Quad]) -> Option<HashMap<u32, Pair>> {
    let seed = [(0, 0), (1, 0), (1, 1), (0, 1)];
    let mut labels: HashMap<u32, Pair> = reached[0].into_iter().zip(seed).collect();
    spread_labels(reached, &mut labels);
    reached.iter().all(|q| goes_round(q, &labels)).then_some(labels)
}

/// How many corners claim each pair.
fn claims(labels: &HashMap<u32, Pair>) -> HashMap<Pair, u32> {
    let mut claims = HashMap::new();
    labels.values().for_each(|&pair| *claims.entry(pair).or_default() += 1);
    claims
}

/// The lone corners, shifted so that both minima are zero.
fn lone(labels: &HashMap<u32, Pair>) -> Vec<Entry> {
    let claims = claims(labels);
    let alone: Vec<(u32, Pair)> =
        labels.iter().map(|(&c, &p)| (c, p)).filter(|(_, p)| claims[p] == 1).collect();
    let u0 = alone.iter().map(|(_, p)| p.0).min().unwrap_or(0);
    let v0 = alone.iter().map(|(_, p)| p.1).min().unwrap_or(0);
    alone.iter().map(|&(corner, (u, v))| Entry { u: u - u0, v: v - v0, corner }).collect()
}

/// Whether no entry stands at a place, and one does to each side of it along its row and along its
/// column.
fn is_hole((u, v): Pair, entries: &[Entry]) -> bool {
    let some = |stands: &dyn Fn(&Entry) -> bool| entries.iter().any(stands);
    !some(&|e| (e.u, e.v) == (u, v))
        && some(&|e| e.v == v && e.u < u)
        && some(&|e| e.v == v && u < e.u)
        && some(&|e| e.u == u && e.v < v)
        && some(&|e| e.u == u && v < e.v)
}

/// Entries by u, then v, and the count of holes in the rectangle from (0,0) to the greatest u and
/// v; 0 if there are no entries.
fn component(mut entries: Vec<Entry>) -> Component {
    entries.sort_by_key(|e| (e.u, e.v));
    let most_u = entries.iter().map(|e| e.u).max().unwrap_or(-1);
    let most_v = entries.iter().map(|e| e.v).max().unwrap_or(-1);
    let places = (0..=most_u).flat_map(|u| (0..=most_v).map(move |v| (u, v)));
    let holes = places.filter(|&place| is_hole(place, &entries)).count() as u32;
    Component { entries, holes }
}

/// The labels of the corners that a group's lowest quad reaches, if there are any that fit.
fn labels(quads: &[Quad], group: &[usize]) -> Option<HashMap<u32, Pair>> {
    // Chains from the lowest quad; it stands first, being the lowest.
    let reached = chained(quads, group[0], reaches);
    fitting(&reached.into_iter().map(|q| quads[q]).collect::<Vec<_>>())
}

/// The fate of the group whose lowest quad this is.
fn fate(quads: &[Quad], group: &[usize], least_quads: u32, least_corners: u32) -> Fate {
    if group.len() < least_quads as usize {
        return Fate::TooFewQuads;
    }
    let Some(labels) = labels(quads, group) else {
        return Fate::NoLabelling;
    };
    let entries = lone(&labels);
    if entries.len() < least_corners as usize {
        return Fate::TooFewCorners;
    }
    Fate::Kept(component(entries))
}

/// The groups, each in rising order, by their lowest quads.
pub fn groups(quads: &[Quad]) -> Vec<Vec<usize>> {
    let mut done = vec![false; quads.len()];
    let mut out = Vec::new();
    for q in 0..quads.len() {
        if !done[q] {
            let group = chained(quads, q, neighbours);
            group.iter().for_each(|&p| done[p] = true);
            out.push(group);
        }
    }
    out
}

/// The fates of all groups, in order of their lowest quads.
pub fn fates(quads: &[Quad], least_quads: u32, least_corners: u32) -> Vec<Fate> {
    let groups = groups(quads);
    groups.iter().map(|group| fate(quads, group, least_quads, least_corners)).collect()
}

/// The components that the demand asks for.
pub fn components(fates: &[Fate]) -> Vec<Component> {
    let kept = |fate: &Fate| match fate {
        Fate::Kept(component) => Some(component.clone()),
        _ => None,
    };
    fates.iter().filter_map(kept).collect()
}

/// The pairs of a kept group that several corners claim, by the shift that puts its entries where
/// they are. Empty where nothing is listed.
pub fn contested(quads: &[Quad], group: &[usize]) -> Vec<(i32, i32)> {
    let labels = labels(quads, group).unwrap_or_default();
    let entries = lone(&labels);
    let Some(first) = entries.first() else {
        return Vec::new();
    };
    let shift = minus((first.u, first.v), labels[&first.corner]);
    let several = claims(&labels).into_iter().filter(|(_, corners)| *corners > 1);
    several.map(|(pair, _)| plus(pair, shift)).collect()
}
