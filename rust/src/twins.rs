//! Twins for a triangulation that comes without them. Plain Rust, not proved: the calls check every twin that they are given.

use crate::stages::NO_TWIN;
use std::collections::HashMap;

/// The twin of each half-edge of these triangles: the other one between the same two corners, where it runs the other way and there is no
/// third. Every other half-edge has [`NO_TWIN`]: on the rim, on a side of three or more triangles, and where two triangles run along a side
/// alike. Elements after the last whole triangle have [`NO_TWIN`] too.
///
/// A call that reads these triangles never refuses these twins.
pub fn twins_of(triangles: &[u32]) -> Vec<u32> {
    let ends = |e: usize| {
        let (from, to) = (triangles[e], triangles[if e % 3 == 2 { e - 2 } else { e + 1 }]);
        (from.min(to), from.max(to))
    };
    let whole = triangles.len() / 3 * 3;
    let mut sides: HashMap<(u32, u32), Vec<usize>> = HashMap::new();
    for e in 0..whole {
        sides.entry(ends(e)).or_default().push(e);
    }
    let mut twins = vec![NO_TWIN; triangles.len()];
    for half_edges in sides.values() {
        if let [e, other] = half_edges[..] {
            if triangles[e] != triangles[other] {
                (twins[e], twins[other]) = (other as u32, e as u32);
            }
        }
    }
    twins
}
