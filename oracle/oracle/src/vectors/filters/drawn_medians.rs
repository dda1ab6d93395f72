// Drawn lists in which the median decides, for long comparisons: groups of many sizes, with lengths
// that are equal, a few floats apart, powers of two apart, or 0 and the least beside the longest.

use super::finish::{critical, draw_lists};
use super::shapes::one;
use super::spans::{apart, beyond, chain, joined, ring, triangle, triangles, HEIGHTS, LEAST};
use super::Case;
use crate::generate::quad_lists::disguise;
use crate::random::Random;
use crate::vectors::form::moved;
use crate::vectors::OverQuads;

/// Lengths of a drawn kind, at times in rising or in falling order.
fn lengths(count: usize, random: &mut Random) -> Vec<f32> {
    let base = random.spread_out(-20, 18).abs();
    let length: fn(f32, &mut Random) -> f32 = random.pick(&[
        |base, _| base,
        |base, random| moved(base, random.between(0, 3)),
        |base, random| random.pick(&beyond(base)),
        |_, random| 2f32.powi(random.between(-70, 20)),
        |base, random| random.pick(&[0.0, LEAST, 1e-20, base, 1_048_576.0]),
        |base, random| base * random.within(0.6, 1.4) as f32,
    ]);
    let mut lengths: Vec<f32> = (0..count).map(|_| length(base, random)).collect();
    match random.below(4) {
        0 => lengths.sort_by(f32::total_cmp),
        1 => lengths.sort_by(|a, b| b.total_cmp(a)),
        _ => {}
    }
    lengths
}

fn group(random: &mut Random) -> Case {
    match random.below(6) {
        0 => one(triangle(random.pick(&HEIGHTS), random.pick(&[0.0, LEAST]))),
        1 => ring(&lengths(random.between(4, 10) as usize, random)),
        _ => chain(&lengths(random.between(2, 10) as usize, random)),
    }
}

/// A limit at a side of a group over its median, or one float beside: the least, the greatest, or
/// one of them where the other is 1. The ratio mostly drops nothing.
fn limited(case: &Case, group: &Case, random: &mut Random) -> Case {
    let limit = critical(group, false, random);
    let any = f32::INFINITY;
    let ratio = random.pick(&[any, any, any, 1.5]);
    let (least, greatest) =
        random.pick(&[(limit, any), (0.0, limit), (limit.min(1.0), limit.max(1.0))]);
    case.by(ratio, least, greatest)
}

/// The same quads begun elsewhere, some run the other way, and at times in another order.
fn disguised(mut case: Case, random: &mut Random) -> Case {
    let mut quads = case.records();
    disguise(&mut quads, random);
    case.quads = quads.concat();
    case
}

/// A list of several groups, by a limit at a side of one of them.
pub fn median_case(random: &mut Random) -> Case {
    let groups: Vec<Case> = (0..random.between(1, 6)).map(|_| group(random)).collect();
    let group = &groups[random.below(groups.len())];
    let mut case = limited(&disguised(joined(&groups), random), group, random);
    draw_lists(&mut case, random);
    case
}

/// As many quads as there are points, anywhere or as triangles, and the first of them by itself.
fn all_apart(random: &mut Random) -> (Case, Case) {
    let mut place = || random.within(-1_000.0, 1_000.0) as f32;
    let anywhere: Vec<(f32, f32)> = (0..4_096).map(|_| (place(), place())).collect();
    let case = match random.coin() {
        true => apart(&anywhere),
        false => apart(&triangles(4_096, random.pick(&[0.0, LEAST]))),
    };
    let first = Case::over(case.frame.clone(), &case.records()[..1]);
    (case, first)
}

/// A list of about 4,096 quads, by a limit at a side of one of its groups: it is one group, or
/// groups of ten, or each quad is a group of its own.
pub fn large_median_case(random: &mut Random) -> Case {
    let (case, group) = match random.below(4) {
        0 => {
            let one = ring(&lengths(2_048, random));
            (one.clone(), one)
        }
        1 => {
            let tens: Vec<Case> = (0..409).map(|_| ring(&lengths(5, random))).collect();
            (joined(&tens), tens[0].clone())
        }
        _ => all_apart(random),
    };
    limited(&disguised(case, random), &group, random)
}
