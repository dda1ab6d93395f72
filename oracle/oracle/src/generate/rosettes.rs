// Rhombi round a hub, with axis angles chosen by hand so that every one of them becomes a quad:
// rings that have no labelling, and spirals whose corners claim one place several times.

use super::finish::parameters;
use super::link::link;
use crate::random::Random;
use frame::Frame;

/// Wide enough for all spokes of a hub, too narrow for any diagonal at its far end.
const TOLERANCE: f32 = 0.65;

/// Hub axes, in degrees, that have every spoke near: spokes are 360 / n degrees apart.
fn hub_axes(n: usize) -> [f64; 2] {
    match n {
        4 => [0.0, 90.0],
        5 => [36.0, 126.0],
        _ => [30.0, 120.0],
    }
}

/// An axis within a quarter turn of 0, measured to a degree, which the tolerance leaves room for.
fn measured(degrees: f64, random: &mut Random) -> f64 {
    (degrees + 90.0).rem_euclid(180.0) - 90.0 + random.within(-1.0, 1.0)
}

/// A corner at a radius and an angle in degrees from a centre.
type Spot = ([f64; 2], f64, f64);

fn add_spot(frame: &mut Frame, (at, radius, angle): Spot, axes: [f64; 2], random: &mut Random) {
    let (s, c) = angle.to_radians().sin_cos();
    let (x, y) = (at[0] + radius * c, at[1] + radius * s);
    let axes = axes.map(|a| measured(a, random).to_radians() as f32);
    frame.add_corner(x as f32, y as f32, axes, [None, None]);
}

/// Adds `count` rhombi, each 360 / n degrees after the last; the ring may close when it is full.
fn add_rosette(frame: &mut Frame, list: &mut Vec<[u32; 3]>, at: [f64; 2], random: &mut Random) {
    let n = random.between(3, 6) as usize;
    let closed = random.coin();
    let count = if closed { n } else { random.between(1, 2 * n as i32 + 1) as usize };
    let (step, turn) = (360.0 / n as f64, random.within(-180.0, 180.0));
    let hub = frame.corners() as u32;
    add_spot(frame, (at, 0.0, 0.0), hub_axes(n).map(|a| a + turn), random);
    let far = 2.0 * (step / 2.0).to_radians().cos();
    for q in 0..=count {
        let spoke = turn + step * q as f64;
        let middle = spoke + step / 2.0;
        add_spot(frame, (at, 100.0, spoke), [spoke, spoke + 90.0], random);
        add_spot(frame, (at, 100.0 * far, middle), [middle - 50.0, middle + 50.0], random);
    }
    for q in 0..count {
        let (a, b) = (hub + 1 + 2 * q as u32, hub + 2 + 2 * q as u32);
        let next = if closed && q + 1 == count { hub + 1 } else { a + 2 };
        list.extend([[hub, a, b], [hub, b, next]]);
    }
}

/// One or more rosettes.
pub fn rosettes(corners: usize, random: &mut Random) -> Frame {
    let mut frame = Frame { params: parameters(random), ..Frame::default() };
    let mut list = Vec::new();
    for place in 0..random.between(1, (corners / 30).clamp(1, 4) as i32) {
        add_rosette(&mut frame, &mut list, [400.0 * place as f64, 7.0], random);
    }
    if random.coin() {
        random.shuffle(&mut list);
    }
    frame.triangles = list.concat();
    frame.twins = link(&list, random.pick(&[0, 0, 0, 10]), random);
    frame.params.tolerance = TOLERANCE;
    frame.params.ratio = random.pick(&[1.5, 3.0]);
    frame
}
