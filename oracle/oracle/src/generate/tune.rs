// Gives the corners of any mesh axis angles that make many of its triangles pair up: a set of
// wanted diagonals is drawn, and each corner keeps the best of some random pairs of angles.

use crate::random::Random;
use frame::{Frame, NONE};
use rules::distance;

/// What one half-edge end asks of a corner's axes.
struct Wish {
    angle: f32,
    diagonal: bool,
    /// The other side at this corner, where a wanted triangle has its common corner here.
    across: Option<f32>,
}

fn angle_of(frame: &Frame, e: usize) -> f32 {
    let (a, b) = frame.ends(e);
    let (a, b) = (a as usize, b as usize);
    rules::angle(frame.x[b] - frame.x[a], frame.y[b] - frame.y[a])
}

/// Draws half-edges to be diagonals: at most one a triangle, each with its twin.
fn draw_diagonals(frame: &Frame, random: &mut Random) -> Vec<bool> {
    let mut wanted = vec![false; frame.half_edges()];
    let mut taken = vec![false; frame.half_edges() / 3];
    let mut order: Vec<usize> = (0..frame.half_edges()).collect();
    random.shuffle(&mut order);
    for e in order {
        let twin = frame.twins[e];
        if twin == NONE || taken[e / 3] || taken[twin as usize / 3] {
            continue;
        }
        for e in [e, twin as usize] {
            wanted[e] = true;
            taken[e / 3] = true;
        }
    }
    wanted
}

fn wishes(frame: &Frame, wanted: &[bool]) -> Vec<Vec<Wish>> {
    let mut all: Vec<Vec<Wish>> = (0..frame.corners()).map(|_| Vec::new()).collect();
    for e in 0..frame.half_edges() {
        let (a, b) = frame.ends(e);
        let (angle, base) = (angle_of(frame, e), e - e % 3);
        let after = base + (e + 1) % 3;
        let before = base + (e + 2) % 3;
        // The two sides of a triangle meet at b exactly when the third, `before`, is its diagonal.
        let across = wanted[before].then(|| angle_of(frame, after));
        all[a as usize].push(Wish { angle, diagonal: wanted[e], across: None });
        all[b as usize].push(Wish { angle, diagonal: wanted[e], across });
    }
    all
}

/// The slot of the nearer axis, where it is below the tolerance.
fn slot(angle: f32, axes: [f32; 2], tolerance: f32) -> Option<usize> {
    let d = axes.map(|a| distance(angle, a));
    let nearer = (d[1] < d[0]) as usize;
    (d[nearer] < tolerance).then_some(nearer)
}

fn score(wishes: &[Wish], axes: [f32; 2], tolerance: f32) -> i32 {
    let mut total = 0;
    for wish in wishes {
        let here = slot(wish.angle, axes, tolerance);
        total += (here.is_some() != wish.diagonal) as i32;
        if let Some(other) = wish.across {
            let there = slot(other, axes, tolerance);
            total += 2 * (here.is_some() && there.is_some() && here != there) as i32;
        }
    }
    total
}

/// A random angle near one of the directions at this corner.
fn guess(wishes: &[Wish], tolerance: f32, random: &mut Random) -> f32 {
    let near = wishes[random.below(wishes.len())].angle;
    near + random.within(-tolerance as f64, tolerance as f64) as f32
}

/// Replaces all axis angles of a frame that names only its own corners.
pub fn tune(frame: &mut Frame, random: &mut Random) {
    let tolerance = frame.params.tolerance.clamp(0.05, 0.8);
    let wanted = draw_diagonals(frame, random);
    for (c, wishes) in wishes(frame, &wanted).iter().enumerate() {
        if wishes.is_empty() {
            continue;
        }
        let mut best = (-1, [0.0; 2]);
        for _ in 0..24 {
            let axes = [guess(wishes, tolerance, random), guess(wishes, tolerance, random)];
            let points = score(wishes, axes, tolerance);
            if points > best.0 {
                best = (points, axes);
            }
        }
        frame.angles[2 * c..2 * c + 2].copy_from_slice(&best.1);
    }
}
