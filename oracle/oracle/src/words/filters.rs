// Document 01's words on the three filters.

use crate::demand;
use frame::Frame;

type Quad = [u32; 4];

fn length(frame: &Frame, a: u32, b: u32) -> f32 {
    let dx = frame.x[b as usize] - frame.x[a as usize];
    let dy = frame.y[b as usize] - frame.y[a as usize];
    let (xx, yy) = (dx * dx, dy * dy);
    rules::root_or_refused(xx + yy).expect("a sum of squares")
}

/// The lengths of a quad's sides, in its order.
pub fn sides(frame: &Frame, quad: &Quad) -> [f32; 4] {
    [0, 1, 2, 3].map(|k| length(frame, quad[k], quad[(k + 1) % 4]))
}

fn kept(quads: &[Quad], keep: impl Fn(&Quad) -> bool) -> Vec<Quad> {
    quads.iter().copied().filter(|q| keep(q)).collect()
}

/// Incidence counts 2 per quad at each of its corners; above 8 is illegal, two drop the quad.
pub fn topology(quads: &[Quad]) -> Vec<Quad> {
    let most = quads.iter().flatten().max().map_or(0, |&c| c as usize + 1);
    let mut incidence = vec![0u32; most];
    quads.iter().flatten().for_each(|&c| incidence[c as usize] += 2);
    kept(quads, |q| q.iter().filter(|&&c| incidence[c as usize] > 8).count() < 2)
}

/// Of two opposing sides.
pub fn ratio(a: f32, b: f32) -> f32 {
    let (greater, lesser) = if a > b { (a, b) } else { (b, a) };
    let floor = 1e-6_f32;
    greater / if lesser < floor { floor } else { lesser }
}

/// The worse of two ratios must be at most the limit.
pub fn opposing_sides(frame: &Frame, quads: &[Quad]) -> Vec<Quad> {
    kept(quads, |q| {
        let [a, b, c, d] = sides(frame, q);
        ratio(a, c) <= frame.params.ratio && ratio(b, d) <= frame.params.ratio
    })
}

/// Place floor(n/2), counted from 0, of all sides of a group, shared ones once per quad.
pub fn median(frame: &Frame, group: &[Quad]) -> f32 {
    let mut all: Vec<f32> = group.iter().flat_map(|q| sides(frame, q)).collect();
    all.sort_by(f32::total_cmp);
    all[all.len() / 2]
}

fn fits(frame: &Frame, quad: &Quad, median: f32) -> bool {
    let (least, greatest) = (frame.params.least, frame.params.greatest);
    let short = |side: f32| least > 0.0 && side < least * median;
    let long = |side: f32| greatest.is_finite() && side > greatest * median;
    median == 0.0 || !sides(frame, quad).iter().any(|&side| short(side) || long(side))
}

/// Sides against the median of their group, the groups being those after the second filter.
pub fn cell_size(frame: &Frame, quads: &[Quad]) -> Vec<Quad> {
    let (lower, upper) = (frame.params.least > 0.0, frame.params.greatest.is_finite());
    if !lower && !upper {
        return quads.to_vec();
    }
    let mut keep = vec![false; quads.len()];
    for group in demand::groups(quads) {
        let members: Vec<Quad> = group.iter().map(|&q| quads[q]).collect();
        let median = median(frame, &members);
        group.iter().for_each(|&q| keep[q] = fits(frame, &quads[q], median));
    }
    (0..quads.len()).filter(|&q| keep[q]).map(|q| quads[q]).collect()
}
