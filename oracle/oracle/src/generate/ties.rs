// Frames full of equal numbers: whole positions, few angles, and a tolerance that is itself
// one of the distances compared.

use super::finish::{finish, Style};
use super::sheet::{Point, Sheet};
use super::triangulate::triangulate;
use super::warp::{grid, sides, Warp};
use crate::random::Random;
use frame::Frame;
use rules::{angle, distance, HALF_PI, PI, QUARTER_PI};

/// The distance at one end of a random half-edge to one of its axes, by document 01's rules.
fn some_distance(frame: &Frame, random: &mut Random) -> f32 {
    if frame.half_edges() == 0 {
        return 0.25;
    }
    let (a, b) = frame.ends(random.below(frame.half_edges()));
    let (a, b) = (a as usize, b as usize);
    let theta = angle(frame.x[b] - frame.x[a], frame.y[b] - frame.y[a]);
    let end = random.pick(&[a, b]);
    distance(theta, frame.angles[2 * end + random.below(2)])
}

/// Sets the tolerance to a distance that occurs, or to a neighbour of one.
pub fn tie_tolerance(frame: &mut Frame, random: &mut Random) {
    let d = some_distance(frame, random);
    let step = random.pick(&[0i32, 0, 1, -1]);
    frame.params.tolerance = f32::from_bits(d.to_bits().wrapping_add(step as u32));
    if frame.params.tolerance.is_nan() {
        frame.params.tolerance = 0.25;
    }
}

fn lattice_points(corners: usize, random: &mut Random) -> Sheet {
    let (wide, high) = sides(corners.min(100), random);
    let mut sheet = grid(wide, high, &Warp::turned(1.0, 0.0), random);
    for point in &mut sheet.points {
        if random.one_in(10) {
            point.x += random.between(-1, 1) as f64;
        }
    }
    if random.one_in(3) {
        let all = sheet.points.clone();
        sheet
            .points
            .retain(|p: &Point| !all.iter().any(|q| q.x == p.x && q.y < p.y && q.y > p.y - 0.5));
        sheet.triangles = triangulate(&sheet.points);
    }
    sheet
}

/// Equal angles, equal distances, and tolerances on the edge.
pub fn ties(corners: usize, random: &mut Random) -> Frame {
    let sheet = lattice_points(corners, random);
    let mut frame = finish(sheet, &Style::exact(), random);
    let few = [0.0, -0.0, QUARTER_PI, HALF_PI, PI, -PI, -HALF_PI, 0.3, -0.3, 0.5];
    let share = random.pick(&[0, 5, 30, 100]);
    for angle in &mut frame.angles {
        if random.below(100) < share {
            *angle = random.pick(&few);
        }
    }
    frame.params.tolerance = random.pick(&[0.25, 0.3, QUARTER_PI, HALF_PI, 0.5, 0.8]);
    if random.coin() {
        tie_tolerance(&mut frame, random);
    }
    frame.params.least = random.pick(&[0.0, 0.5, 1.0]);
    frame.params.greatest = random.pick(&[1.0, 2.0, f32::INFINITY]);
    frame.params.ratio = random.pick(&[1.0, 1.5, 2.0]);
    frame
}
