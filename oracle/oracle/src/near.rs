// Whether document 01 owes equality with the unmodified original on a frame. Decided here:
// all numbers are the unmodified build's own (atan2, its distance), compared in double
// precision; "within 0.00001" includes 0.00001 itself; every finite axis angle of the frame
// counts for the limit of 8, also of slots that no half-edge uses; distances are those of
// informative slots at both ends of every half-edge; centroid angles are those of the quads
// that the unmodified build makes.

use crate::gap::round_the_circle;
use frame::{Frame, Stages, NONE};

/// The two readings of "near case".
#[derive(Clone, Copy, Debug, PartialEq, Eq)]
pub struct Scope {
    /// Every compared distance counts against the other slot's.
    pub letter: bool,
    /// The other slot's counts only where the nearest is at most the tolerance and a bit.
    pub narrow: bool,
}

const BIT: f64 = 0.00001;

fn close(a: f32, b: f32) -> bool {
    (a as f64 - b as f64).abs() <= BIT
}

/// The finite distances of a corner's informative slots.
fn distances(theta: f32, corner: usize, stages: &Stages) -> Vec<f32> {
    let axes = &stages.axes[corner];
    (0..2)
        .filter(|&slot| axes.informative[slot])
        .map(|slot| plain::angular_dist_pi(theta, axes.angles[slot]))
        .filter(|d| d.is_finite())
        .collect()
}

/// The scope of one end of a half-edge.
fn end(theta: f32, corner: usize, frame: &Frame, stages: &Stages) -> Scope {
    let tolerance = frame.params.tolerance;
    let found = distances(theta, corner, stages);
    if found.iter().any(|&d| close(d, tolerance)) {
        return Scope { letter: false, narrow: false };
    }
    let tied = found.len() == 2 && close(found[0], found[1]);
    let nearest = found.iter().fold(f32::INFINITY, |a, &b| a.min(b));
    let in_play = nearest as f64 <= tolerance as f64 + BIT;
    Scope { letter: !tied, narrow: !(tied && in_play) }
}

/// The only diagonal of a triangle whose other two sides are Grid.
fn only_diagonal(classes: &[u32], t: usize) -> Option<usize> {
    let sides = &classes[3 * t..3 * t + 3];
    let count = |class| sides.iter().filter(|&&c| c == class).count();
    (count(2) == 1 && count(1) == 2).then(|| 3 * t + sides.iter().position(|&c| c == 2).unwrap())
}

/// The four corners of the quad that triangle t begins, in the order their centroid is summed.
fn quad_of(frame: &Frame, classes: &[u32], t: usize) -> Option<[usize; 4]> {
    let e = only_diagonal(classes, t)?;
    let twin = frame.twins[e];
    if twin == NONE || twin as usize / 3 <= t {
        return None;
    }
    let other = twin as usize / 3;
    if only_diagonal(classes, other)? != twin as usize {
        return None;
    }
    let own = &frame.triangles[3 * t..3 * t + 3];
    let new = frame.triangles[3 * other..3 * other + 3].iter().find(|c| !own.contains(c))?;
    Some([own[0] as usize, own[1] as usize, own[2] as usize, *new as usize])
}

/// The angles of four corners seen from their centroid, by atan2.
fn centroid_angles(frame: &Frame, corners: [usize; 4]) -> [f32; 4] {
    let middle = |list: &[f32]| {
        let [a, b, c, d] = corners.map(|corner| list[corner]);
        (a + b + c + d) / 4.0
    };
    let (x, y) = (middle(&frame.x), middle(&frame.y));
    corners.map(|c| (frame.y[c] - y).atan2(frame.x[c] - x))
}

fn centroids_apart(frame: &Frame, stages: &Stages) -> bool {
    let triangles = 0..frame.half_edges() / 3;
    let quads: Vec<_> = triangles.filter_map(|t| quad_of(frame, &stages.classes, t)).collect();
    assert_eq!(quads.len(), stages.quads.len(), "the quads as this file finds them");
    quads.iter().all(|&corners| {
        let angles = centroid_angles(frame, corners);
        let apart = |i: usize, j: usize| round_the_circle(angles[i], angles[j]) > BIT;
        (0..4).all(|i| (0..i).all(|j| apart(i, j)))
    })
}

fn angles_in_range(frame: &Frame) -> bool {
    frame.angles.iter().all(|a| !a.is_finite() || a.abs() <= 8.0)
}

/// The scope of an accepted frame, from what the unmodified build made of it.
pub fn scope(frame: &Frame, stages: &Stages) -> Scope {
    let common = angles_in_range(frame) && centroids_apart(frame, stages);
    let mut scope = Scope { letter: common, narrow: common };
    for e in 0..frame.half_edges() {
        let (a, b) = frame.ends(e);
        let (a, b) = (a as usize, b as usize);
        let theta = (frame.y[b] - frame.y[a]).atan2(frame.x[b] - frame.x[a]);
        for corner in [a, b] {
            let end = end(theta, corner, frame, stages);
            scope.letter &= end.letter;
            scope.narrow &= end.narrow;
        }
    }
    scope
}
