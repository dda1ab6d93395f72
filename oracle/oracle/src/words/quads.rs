// Document 01's words on quads.

use std::cmp::Ordering;

use frame::{Frame, NONE};

/// A triangle's only diagonal; there is none where a side is Spurious or two are Diagonal.
fn only_diagonal(classes: &[u32], t: usize) -> Option<usize> {
    let sides = &classes[3 * t..3 * t + 3];
    if sides.contains(&0) {
        return None;
    }
    let mut found = (3 * t..3 * t + 3).filter(|&e| classes[e] == 2);
    let e = found.next()?;
    found.next().is_none().then_some(e)
}

/// The four corners that triangle t and its higher partner make: t's three, then the new one.
fn paired(frame: &Frame, classes: &[u32], t: usize) -> Option<[u32; 4]> {
    let e = only_diagonal(classes, t)?;
    let twin = frame.twins[e];
    if twin == NONE {
        return None;
    }
    let other = twin as usize / 3;
    if other <= t || only_diagonal(classes, other) != Some(twin as usize) {
        return None;
    }
    let own: [u32; 3] = [0, 1, 2].map(|k| frame.triangles[3 * t + k]);
    let theirs = &frame.triangles[3 * other..3 * other + 3];
    let mut new = theirs.iter().filter(|c| !own.contains(c));
    match (new.next(), new.next()) {
        (Some(&fourth), None) => Some([own[0], own[1], own[2], fourth]),
        _ => None,
    }
}

/// By angle from the centroid, equal angles keeping order, then from least y, then least x.
fn ordered(frame: &Frame, corners: [u32; 4]) -> [u32; 4] {
    let middle = |list: &[f32]| {
        let p = corners.map(|c| list[c as usize]);
        (((p[0] + p[1]) + p[2]) + p[3]) / 4.0
    };
    let at = |c: u32| (frame.x[c as usize], frame.y[c as usize]);
    let (mx, my) = (middle(&frame.x), middle(&frame.y));
    let mut round = corners.map(|c| (rules::angle(at(c).0 - mx, at(c).1 - my), c));
    round.sort_by(|a, b| a.0.partial_cmp(&b.0).unwrap_or(Ordering::Equal));
    let before = |c: u32, d: u32| {
        let ((cx, cy), (dx, dy)) = (at(c), at(d));
        cy < dy || cy == dy && cx < dx
    };
    let first = (0..4)
        .find(|&k| (0..4).all(|j| !before(round[j].1, round[k].1)))
        .expect("one of four is least");
    round.rotate_left(first);
    round.map(|(_, c)| c)
}

/// The quads, in order of their lower triangle.
pub fn quads(frame: &Frame, classes: &[u32]) -> Vec<[u32; 4]> {
    (0..frame.half_edges() / 3)
        .filter_map(|t| paired(frame, classes, t))
        .map(|corners| ordered(frame, corners))
        .collect()
}
