// A simple triangulator of scattered points (Bowyer and Watson), for a few hundred of them.

use super::sheet::Point;

type Spot = (f64, f64);

/// Twice the area of a, b, c: above 0 where they turn left.
fn turn(a: Spot, b: Spot, c: Spot) -> f64 {
    (b.0 - a.0) * (c.1 - a.1) - (b.1 - a.1) * (c.0 - a.0)
}

/// Whether p lies inside the circle through a, b, c, which turn left.
fn inside(a: Spot, b: Spot, c: Spot, p: Spot) -> bool {
    let row = |q: Spot| {
        let (x, y) = (q.0 - p.0, q.1 - p.1);
        (x, y, x * x + y * y)
    };
    let ((ax, ay, a2), (bx, by, b2), (cx, cy, c2)) = (row(a), row(b), row(c));
    ax * (by * c2 - b2 * cy) - ay * (bx * c2 - b2 * cx) + a2 * (bx * cy - by * cx) > 1e-9
}

/// Three far spots whose triangle holds everything.
fn surround(spots: &mut Vec<Spot>) {
    let reach = spots.iter().fold(1.0f64, |r, s| r.max(s.0.abs()).max(s.1.abs()));
    let far = 64.0 * reach;
    spots.extend([(-far, -far), (far, -far), (0.0, far)]);
}

/// The outline of a set of triangles: their directed sides that have no counterpart.
fn outline(triangles: &[[usize; 3]]) -> Vec<(usize, usize)> {
    let sides = |t: &[usize; 3]| [(t[0], t[1]), (t[1], t[2]), (t[2], t[0])];
    let all: Vec<(usize, usize)> = triangles.iter().flat_map(sides).collect();
    let alone = |&&(a, b): &&(usize, usize)| !all.contains(&(b, a));
    all.iter().filter(alone).copied().collect()
}

/// Triangles over all points. Points that coincide may stay outside every triangle.
pub fn triangulate(points: &[Point]) -> Vec<[u32; 3]> {
    let n = points.len();
    let mut spots: Vec<Spot> = points.iter().map(|p| (p.x, p.y)).collect();
    surround(&mut spots);
    let mut triangles = vec![[n, n + 1, n + 2]];
    for p in 0..n {
        let hit = |t: &[usize; 3]| inside(spots[t[0]], spots[t[1]], spots[t[2]], spots[p]);
        let (gone, kept): (Vec<_>, Vec<_>) = triangles.into_iter().partition(hit);
        triangles = kept;
        for (a, b) in outline(&gone) {
            if turn(spots[a], spots[b], spots[p]) > 0.0 {
                triangles.push([a, b, p]);
            }
        }
    }
    let real = |t: &&[usize; 3]| t.iter().all(|&c| c < n);
    triangles.iter().filter(real).map(|t| t.map(|c| c as u32)).collect()
}
