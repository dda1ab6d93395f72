// Many groups in one list: each is judged by the median of its own lengths.

use super::medians::at_one;
use super::spans::{apart, chain, side_by_side, triangles};
use super::Case;
use crate::generate::patterns::Quad;
use crate::random::Random;
use crate::vectors::form::moved;
use crate::vectors::OverQuads;

/// The scales of groups of one quad, of two, and so on: those of neighbours are far apart.
const SCALES: [f32; 10] = [3.0, 700.0, 0.02, 50_000.0, 1.0, 90.0, 1e-6, 12.0, 4e5, 0.3];

/// The groups. Of a group no length is half as long again as another.
fn groups() -> Vec<Case> {
    let length = |scale: f32, i: usize| scale * (1.0 + (7 * i % 11) as f32 / 22.0);
    let chain_of = |(group, &scale): (usize, &f32)| {
        chain(&(group..2 * group + 2).map(|i| length(scale, i)).collect::<Vec<_>>())
    };
    SCALES.iter().enumerate().map(chain_of).collect()
}

/// A quad of each group in turn, as long as there are any.
fn dealt(groups: &[Vec<Quad>]) -> Vec<Quad> {
    let most = groups.iter().map(Vec::len).max().unwrap_or(0);
    let turn = |i: usize| groups.iter().filter_map(move |group| group.get(i).copied());
    (0..most).flat_map(turn).collect()
}

/// By groups, one of each in turn, the same from the last on, and in drawn orders.
fn orders(cases: &mut Vec<Case>) {
    let (points, quads) = side_by_side(&groups());
    let by_group = Case::of(&points, &quads.concat());
    let mut turns = dealt(&quads);
    let in_turn = Case::of(&points, &turns);
    turns.reverse();
    let backwards = Case::of(&points, &turns);
    let lists = [by_group.shuffled(1), by_group.shuffled(2), by_group, in_turn, backwards];
    lists.iter().for_each(|case| at_one(cases, case));
}

/// Quads between the groups that would make one of them: the ratio drops them or lets them pass, or
/// they are a crowd.
fn between(cases: &mut Vec<Case>) {
    let (mut points, mut quads) = side_by_side(&groups());
    let last = |group: &[Quad]| group[group.len() - 1];
    let bridge = |pair: &[Vec<Quad>]| {
        let ([_, _, a, b], [c, d, _, _]) = (last(&pair[0]), pair[1][0]);
        [a, b, c, d]
    };
    let bridges: Vec<Quad> = quads.windows(2).map(bridge).collect();
    let bridged = Case::of(&points, &dealt(&[&quads[..], &[bridges]].concat()));
    at_one(cases, &bridged);
    for (least, greatest) in [(0.0, 1.0), (1.0, f32::INFINITY), (0.9, 1.2)] {
        cases.push(bridged.by(1.5, least, greatest));
    }
    let hub = points.len() as u32;
    points.extend([(0.0, 0.0), (20.0, 0.0)]);
    let crowd = quads[..5].iter().map(|group| [group[0][0], group[0][1], hub, hub + 1]).collect();
    quads.insert(0, crowd);
    at_one(cases, &Case::of(&points, &dealt(&quads)));
}

/// As many groups of one quad, and as many quads of one group, as a file has room for.
fn large(cases: &mut Vec<Case>) {
    let mut random = Random::new(15);
    let points: Vec<(f32, f32)> =
        (0..1_024).map(|_| (random.within(0.0, 1_000.0) as f32, 0.0)).collect();
    cases.push(apart(&points).by(f32::INFINITY, 0.3, 1.6));
    let lengths: Vec<f32> = (0..1_025).map(|_| moved(10.0, random.below(1 << 20) as i32)).collect();
    // each quad is in the list twice; the file says the list once
    let one = chain(&lengths);
    let twice = Case::over(one.frame.clone(), &one.records().repeat(2));
    cases.push(twice.by(f32::INFINITY, 0.0, 1.0));
    cases.push(apart(&triangles(256, 0.0)).by(f32::INFINITY, 0.0, 1.0));
}

pub fn add(cases: &mut Vec<Case>) {
    orders(cases);
    between(cases);
    large(cases);
}
