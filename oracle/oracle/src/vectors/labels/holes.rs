// Lists for document 02's holes: every shape in the four quarter turns, its labels going up from the
// first quad and down from it; several components in a list; long and drawn ones.

use super::Case;
use crate::generate::cuts::cut_quads;
use crate::generate::plans::Plan;
use crate::random::Random;
use crate::vectors::hole_shapes::{named, series, shapes};
use crate::vectors::Vector;

const SEED: u64 = 61;
const DRAWN: u64 = 24;

fn case(plan: &Plan) -> Case {
    Case::of(&plan.quads)
}

/// Turned by none and two quarters as the picture has its cells, by one and three from the last on.
fn turned(cases: &mut Vec<Case>, plan: &Plan) {
    for quarters in 0..4 {
        let turned = plan.turned(quarters);
        cases.push(case(&if quarters % 2 == 0 { turned } else { turned.backwards() }));
    }
}

/// Those far from the first place, and those whose rectangle is far larger than the sheet.
fn long(cases: &mut Vec<Case>) {
    let open = Plan::open_ring(48, 40);
    let rings = [(300, 5), (5, 140), (40, 30)].map(|(wide, high)| Plan::ring(wide, high));
    cases.extend(rings.iter().chain([&open, &Plan::comb(5, 9, 30)]).map(case));
    cases.push(case(&open.turned(2).backwards()));
}

/// Components of which the least numbers drop some: their corners are listed nowhere.
fn dropped(cases: &mut Vec<Case>) {
    let [large, small, strip] = ["a wide O", "O", "rows without a corner"].map(named);
    let list = case(&Plan::apart(&[large, strip, small]));
    cases.extend([list.by(17, 0), list.by(0, 10), list.by(0, 25), list.by(1, 33)]);
}

/// Whatever the lists held before, and where there is no room for a record or an entry.
fn lent(cases: &mut Vec<Case>) {
    let list = case(&Plan::apart(&[named("a hook"), named("O"), named("U")]));
    for word in [0, 1, u32::MAX] {
        cases.push(list.with(|case| {
            case.work.fill(word);
            case.components.fill(word);
            case.entries.fill(word);
        }));
    }
    cases.push(list.with(|case| case.components.truncate(8)));
    cases.push(list.with(|case| case.entries.truncate(3)));
}

fn drawn(cases: &mut Vec<Case>) {
    for number in 0..DRAWN {
        cases.push(Case::of(&cut_quads(&mut Random::part(SEED, number))));
    }
}

pub fn add(cases: &mut Vec<Case>) {
    shapes().for_each(|shape| turned(cases, &shape.plan()));
    cases.extend(series().iter().map(case));
    long(cases);
    dropped(cases);
    lent(cases);
    drawn(cases);
}
