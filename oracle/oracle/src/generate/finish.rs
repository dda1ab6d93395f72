// Turns a sheet into a frame: numbering, twins, measured angles, spreads and parameters.

use super::link::link;
use super::sheet::Sheet;
use crate::random::Random;
use frame::{Frame, Params};

/// How the measured frame departs from the true sheet.
#[derive(Clone, Copy, Debug)]
pub struct Style {
    /// The greatest error of a measured angle.
    pub noise: f64,
    /// Angles may be off by up to this many half turns.
    pub turns: i32,
    /// Of a hundred spreads, how many are present.
    pub spreads: usize,
    /// Of a hundred triangles, how many run the wrong way round.
    pub flips: usize,
    /// Of a hundred twins, how many are not given.
    pub unlinked: usize,
}

impl Style {
    /// True angles, no spreads, a sound mesh.
    pub fn exact() -> Style {
        Style { noise: 0.0, turns: 0, spreads: 0, flips: 0, unlinked: 0 }
    }

    /// Mostly harmless departures.
    pub fn usual(random: &mut Random) -> Style {
        Style {
            noise: random.pick(&[0.0, 1e-4, 0.01, 0.05, 0.2]),
            turns: random.pick(&[0, 0, 1, 1]),
            spreads: random.pick(&[0, 0, 50, 100]),
            flips: random.pick(&[0, 0, 0, 5]),
            unlinked: random.pick(&[0, 0, 0, 5]),
        }
    }
}

/// Parameters near the original's defaults, with the odd extreme one.
pub fn parameters(random: &mut Random) -> Params {
    let mut params = Params {
        tolerance: random.within(0.05, 0.4) as f32,
        ratio: random.pick(&[1.1, 1.5, 1.5, 3.0, 10.0]),
        least: random.pick(&[0.0, 0.4, 0.5, 0.9]),
        greatest: random.pick(&[1.1, 2.0, 2.5, f32::INFINITY]),
        spread_limit: random.pick(&[0.6, 1.0]),
        least_quads: random.pick(&[0, 1, 1, 1, 2, 5]),
        least_corners: random.pick(&[0, 1, 4, 4, 6, 9]),
        spread_rule: 1,
    };
    if random.one_in(16) {
        let odd = [f32::INFINITY, f32::NEG_INFINITY, 0.0, -0.0, -1.0, 1.0, 1e30];
        match random.below(5) {
            0 => params.tolerance = random.pick(&odd),
            1 => params.ratio = random.pick(&odd),
            2 => params.least = random.pick(&odd),
            3 => params.greatest = random.pick(&odd),
            _ => params.spread_limit = random.pick(&odd),
        }
    }
    params
}

fn spread(style: &Style, random: &mut Random) -> Option<f32> {
    let odd = [f32::NAN, f32::INFINITY, f32::NEG_INFINITY, -1.0, 0.6, 1.0, 0.0];
    (random.below(100) < style.spreads).then(|| {
        if random.one_in(20) {
            random.pick(&odd)
        } else {
            random.within(0.0, 0.7) as f32
        }
    })
}

fn measured(angle: f64, style: &Style, random: &mut Random) -> f32 {
    let turns = random.between(-style.turns, style.turns) as f64;
    let error = random.within(-style.noise, style.noise);
    (angle + error + turns * std::f64::consts::PI) as f32
}

/// The frame of a sheet.
pub fn finish(mut sheet: Sheet, style: &Style, random: &mut Random) -> Frame {
    if random.coin() {
        sheet.renumber(random);
    }
    if random.coin() {
        sheet.restart_triangles(random);
    }
    if random.coin() {
        sheet.reverse();
    }
    let mut frame = Frame { params: parameters(random), ..Frame::default() };
    for point in &sheet.points {
        let mut angles = point.axes.map(|a| measured(a, style, random));
        if random.coin() {
            angles.swap(0, 1);
        }
        let spreads = [spread(style, random), spread(style, random)];
        frame.add_corner(point.x as f32, point.y as f32, angles, spreads);
    }
    for t in &mut sheet.triangles {
        if random.below(100) < style.flips {
            t.swap(1, 2);
        }
    }
    frame.triangles = sheet.triangles.concat();
    frame.twins = link(&sheet.triangles, style.unlinked, random);
    frame
}
