// Gives a drawn case its parameters, its workspace and its room; and damages some.

use super::Case;
use crate::random::Random;
use crate::vectors::form::{moved, untouched};
use crate::vectors::{work, OverQuads};
use crate::words::filters::{median, ratio, sides};

/// A ratio of a drawn quad, or a side of it over the median of all, at times one float beside.
pub fn critical(case: &Case, of_ratios: bool, random: &mut Random) -> f32 {
    let records = case.records();
    let [a, b, c, d] = sides(&case.frame, &random.pick(&records));
    let value = match of_ratios {
        true => random.pick(&[ratio(a, c), ratio(b, d)]),
        false => random.pick(&[a, b, c, d]) / median(&case.frame, &records),
    };
    if value > 0.0 && value.is_finite() {
        moved(value, random.between(-1, 1))
    } else {
        1.0
    }
}

/// Parameters that part the quads, at values that the list itself has; or those it came with.
fn draw_params(case: &mut Case, random: &mut Random) {
    if case.quads.is_empty() {
        return;
    }
    if random.coin() {
        case.frame.params.ratio = critical(case, true, random);
    }
    match random.below(4) {
        0 => case.frame.params.least = critical(case, false, random),
        1 => case.frame.params.greatest = critical(case, false, random),
        2 => case.frame.params.ratio = f32::INFINITY,
        _ => {}
    }
}

/// A drawn workspace; room mostly enough, at times a record short.
pub fn draw_lists(case: &mut Case, random: &mut Random) {
    work::drawn(case, random);
    let [_, _, answer] = ruled::filter(&case.records(), &case.frame);
    let short = !answer.is_empty() && random.one_in(8);
    let records = if short { answer.len() - 1 } else { answer.len() + random.below(3) };
    case.kept = untouched(4 * records + random.below(4));
}

pub fn finished(mut case: Case, random: &mut Random) -> Case {
    draw_params(&mut case, random);
    draw_lists(&mut case, random);
    case
}

/// One fault of a drawn row, where the case's lists can have it.
pub fn damage(case: &mut Case, random: &mut Random) {
    let (corners, names) = (case.frame.corners().max(1), case.quads.len().max(4));
    let (corner, name) = (random.below(corners), random.below(names));
    let bad = random.pick(&[f32::NAN, f32::INFINITY, 1_048_577.0, -2e30]);
    let params = &mut case.frame.params;
    match random.below(9) {
        0 => case.frame.y.push(0.0),
        1 => case.quads.truncate(name),
        2 => params.ratio = f32::NAN,
        3 => params.least = f32::NAN,
        4 => params.greatest = f32::NAN,
        5 => case.frame.x.iter_mut().skip(corner).take(1).for_each(|x| *x = bad),
        6 => case.quads.iter_mut().skip(name).for_each(|c| *c += corners as u32 / 2),
        7 => case.quads.iter_mut().skip(name).take(2).for_each(|c| *c = corner as u32),
        _ => case.work.truncate(case.wanted().saturating_sub(1 + name % 3)),
    }
}
