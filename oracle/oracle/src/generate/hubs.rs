// Two corners that every quad of a bundle has in common: with five quads or more both are
// over the first filter's limit. The diagonal of each quad runs between the two.

use super::finish::parameters;
use super::link::link;
use crate::random::Random;
use frame::Frame;

/// Corners above the line between the hubs, where both hubs see them at a steep angle.
fn add_rim(frame: &mut Frame, middle: f64, count: usize, random: &mut Random) {
    for _ in 0..count {
        let x = (middle + random.within(-30.0, 30.0)) as f32;
        let y = random.within(100.0, 250.0) as f32;
        let to_hub = |at: f64| rules::angle(at as f32 - x, -y);
        let axes = [to_hub(middle - 100.0), to_hub(middle + 100.0)];
        frame.add_corner(x, y, axes, [None, None]);
    }
}

/// Adds a bundle: hubs first, then the rim, then two triangles a quad.
fn add_bundle(frame: &mut Frame, list: &mut Vec<[u32; 3]>, middle: f64, random: &mut Random) {
    let hub = frame.corners() as u32;
    let axes = [[0.95, 1.25], [-0.95, -1.25]];
    for (x, axes) in [(middle - 100.0, axes[0]), (middle + 100.0, axes[1])] {
        frame.add_corner(x as f32, 0.0, axes, [None, None]);
    }
    let quads = random.between(2, 8) as u32;
    add_rim(frame, middle, quads as usize + 1, random);
    for q in 0..quads {
        let rim = hub + 2 + q;
        list.extend([[hub, hub + 1, rim], [hub + 1, hub, rim + 1]]);
    }
}

/// One to four bundles.
pub fn hubs(_corners: usize, random: &mut Random) -> Frame {
    let mut frame = Frame { params: parameters(random), ..Frame::default() };
    let mut list = Vec::new();
    for bundle in 0..random.between(1, 4) {
        add_bundle(&mut frame, &mut list, 400.0 * bundle as f64, random);
    }
    frame.triangles = list.concat();
    frame.twins = link(&list, random.pick(&[0, 0, 15]), random);
    frame.params.tolerance = 0.4;
    frame.params.ratio = random.pick(&[1.5, 3.0, f32::INFINITY]);
    frame.params.least = random.pick(&[0.0, 0.5]);
    frame
}
