// Sound frames with numbers at the ends of their ranges.

use super::grids;
use super::ties::tie_tolerance;
use crate::random::Random;
use frame::Frame;

const GREATEST: f32 = 1_048_576.0;

/// Scales all positions, keeping them in range.
fn rescale(frame: &mut Frame, factor: f32) {
    for p in frame.x.iter_mut().chain(&mut frame.y) {
        *p = (*p * factor).clamp(-GREATEST, GREATEST);
    }
}

fn wild_angles(frame: &mut Frame, random: &mut Random) {
    let odd = [f32::NAN, f32::INFINITY, f32::NEG_INFINITY, f32::MAX, -0.0, 8.0, -8.0, 1e10];
    for angle in &mut frame.angles {
        if random.one_in(10) {
            *angle = random.pick(&odd);
        } else if random.one_in(10) {
            *angle = random.pattern();
        } else if random.one_in(4) {
            *angle += rules::PI * random.between(-40, 40) as f32;
        }
    }
}

fn wild_spreads(frame: &mut Frame, random: &mut Random) {
    for slot in 0..frame.marks.len() {
        if random.one_in(3) {
            frame.marks[slot] = random.pick(&[0, 1, 1, u32::MAX]);
            frame.spreads[slot] = random.pattern();
        }
    }
}

fn wild_parameters(frame: &mut Frame, random: &mut Random) {
    let any = [0.0, -0.0, 1.0, -1.0, f32::MAX, f32::MIN, f32::INFINITY, f32::NEG_INFINITY, 1e-40];
    let params = &mut frame.params;
    params.tolerance = random.pick(&[0.25, 0.25, 1.6, f32::INFINITY, 0.0]);
    params.ratio = random.pick(&any);
    params.least = random.pick(&any);
    params.greatest = random.pick(&any);
    params.spread_limit = random.pick(&any);
    params.least_quads = random.pick(&[0, 1, 2, 4_096, u32::MAX]);
    params.least_corners = random.pick(&[0, 1, 4, 4_096, u32::MAX]);
}

/// A grid made extreme in one or more ways.
pub fn extreme(corners: usize, random: &mut Random) -> Frame {
    let mut frame = match random.below(3) {
        0 => grids::perfect(corners, random),
        1 => grids::warped(corners, random),
        _ => grids::jittered(corners, random),
    };
    match random.below(5) {
        0 => rescale(&mut frame, random.pick(&[1e3, 1e4, 1e5, 1e9])),
        1 => rescale(&mut frame, random.pick(&[1e-20, 1e-38, 1e-44, 1e-6])),
        2 => wild_angles(&mut frame, random),
        3 => wild_spreads(&mut frame, random),
        _ => wild_parameters(&mut frame, random),
    }
    if random.one_in(4) {
        wild_angles(&mut frame, random);
    }
    if random.one_in(8) {
        tie_tolerance(&mut frame, random);
    }
    frame
}
