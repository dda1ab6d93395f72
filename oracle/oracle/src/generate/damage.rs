// Damages sound frames, one row of the refusal table at a time, and says what must be answered.

use super::silence::no_rule;
use crate::judge::Refusal;
use crate::random::Random;
use frame::{Frame, NONE};

fn lengths(frame: &mut Frame, random: &mut Random) -> u32 {
    match random.below(8) {
        0 => frame.y.push(0.0),
        1 => frame.angles.push(0.0),
        2 => frame.spreads.push(0.0),
        3 => frame.marks.push(0),
        4 => frame.twins.push(NONE),
        5 => frame.x.push(f32::NAN),
        6 => frame.triangles.push(NONE),
        _ => {
            frame.triangles.push(0);
            frame.twins.push(NONE);
        }
    }
    0
}

fn counts(frame: &mut Frame, random: &mut Random) -> u32 {
    if random.coin() {
        while frame.corners() <= 4_096 {
            frame.add_corner(f32::NAN, 0.0, [0.0, 0.0], [None, None]);
        }
    } else {
        while frame.half_edges() <= 24_576 {
            frame.add_triangle([0, 1, 1], [NONE; 3]);
        }
    }
    0
}

fn parameters(frame: &mut Frame, random: &mut Random) -> u32 {
    let nan = f32::from_bits(random.pick(&[0x7FC0_0000, 0xFF80_0001, 0x7FFF_FFFF]));
    let first = random.below(5);
    let params = &mut frame.params;
    let floats = [
        &mut params.tolerance,
        &mut params.ratio,
        &mut params.least,
        &mut params.greatest,
        &mut params.spread_limit,
    ];
    for (place, float) in floats.into_iter().enumerate() {
        if place == first || place > first && random.one_in(3) {
            *float = nan;
        }
    }
    first as u32
}

fn positions(frame: &mut Frame, random: &mut Random) -> u32 {
    let bits = [0x4980_0001, 0xC980_0001, 0x7F80_0000, 0xFF80_0000, 0x7FC0_0000, 0x7F7F_FFFF];
    let mut first = frame.corners();
    for _ in 0..random.between(1, 3) {
        let c = random.below(frame.corners());
        let list = if random.coin() { &mut frame.x } else { &mut frame.y };
        list[c] = f32::from_bits(random.pick(&bits));
        first = first.min(c);
    }
    first as u32
}

fn missing_corner(frame: &mut Frame, random: &mut Random) -> u32 {
    let mut first = frame.half_edges();
    for _ in 0..random.between(1, 3) {
        let place = random.below(frame.half_edges());
        frame.triangles[place] = random.pick(&[frame.corners() as u32, u32::MAX, 1 << 20]);
        first = first.min(place);
    }
    first as u32
}

fn repeated_corner(frame: &mut Frame, random: &mut Random) -> u32 {
    let mut first = frame.half_edges();
    for _ in 0..random.between(1, 3) {
        let t = random.below(frame.half_edges() / 3);
        let k = random.below(3);
        frame.triangles[3 * t + k] = frame.triangles[3 * t + (k + 1) % 3];
        first = first.min(t);
    }
    first as u32
}

/// The first half-edge from a random start that fulfils a condition.
fn find(frame: &Frame, random: &mut Random, fits: impl Fn(usize) -> bool) -> Option<usize> {
    let count = frame.half_edges();
    let start = random.below(count);
    (0..count).map(|i| (start + i) % count).find(|&e| fits(e))
}

/// Where the half-edge had a twin before it, that one comes first, and is not pointed back to.
fn past_the_end(frame: &mut Frame, random: &mut Random) -> Refusal {
    let e = random.below(frame.half_edges()) as u32;
    let old = frame.twins[e as usize];
    let past = random.pick(&[frame.half_edges() as u32, NONE - 1]);
    frame.twins[e as usize] = past;
    if old < e {
        return Refusal { row: 11, place: old, beside: e };
    }
    Refusal { row: 7, place: e, beside: past }
}

fn not_back(frame: &mut Frame, random: &mut Random) -> Option<Refusal> {
    let open = find(frame, random, |e| frame.twins[e] == NONE)?;
    let other = find(frame, random, |f| f != open)?;
    frame.twins[open] = other as u32;
    Some(Refusal { row: 11, place: open as u32, beside: other as u32 })
}

fn wrong_corners(frame: &mut Frame, random: &mut Random) -> Option<Refusal> {
    let e = find(frame, random, |e| frame.twins[e] == NONE)?;
    let (from, to) = frame.ends(e);
    let f = find(frame, random, |f| frame.twins[f] == NONE && frame.ends(f) != (to, from))?;
    (frame.twins[e], frame.twins[f]) = (f as u32, e as u32);
    Some(Refusal { row: 12, place: e.min(f) as u32, beside: e.max(f) as u32 })
}

fn twins(frame: &mut Frame, random: &mut Random) -> Refusal {
    let found = match random.below(3) {
        0 => not_back(frame, random),
        1 => wrong_corners(frame, random),
        _ => None,
    };
    found.unwrap_or_else(|| past_the_end(frame, random))
}

fn spread_rule(frame: &mut Frame, random: &mut Random) -> u32 {
    frame.params.spread_rule = no_rule(random);
    0
}

fn damage_row(row: u32, frame: &mut Frame, random: &mut Random) -> Refusal {
    let place = match row {
        1 => lengths(frame, random),
        2 => counts(frame, random),
        3 => parameters(frame, random),
        18 => spread_rule(frame, random),
        4 => positions(frame, random),
        5 => missing_corner(frame, random),
        6 => repeated_corner(frame, random),
        _ => return twins(frame, random),
    };
    Refusal::at(row, place)
}

/// Damages a frame that has triangles so that the row given is the first to refuse it; 7 stands
/// for the rows of twins, of which one is drawn. Later rows may be damaged too: they must not be
/// seen. Row 18 stands before row 4.
pub fn damage(row: u32, frame: &mut Frame, random: &mut Random) -> Refusal {
    let next = if row == 18 { 4 } else { row + 1 };
    for later in (next..=7).rev() {
        if random.one_in(4) && later != 2 {
            damage_row(later, frame, random);
        }
    }
    damage_row(row, frame, random)
}
