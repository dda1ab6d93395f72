// The original's components already come in document 01's order: groups by their lowest quad.

use oracle::random::Random;

/// The lowest quad of each quad's group, by relabelling until nothing changes.
fn lowest(quads: &[[u32; 4]]) -> Vec<usize> {
    let side = |q: &[u32; 4], k: usize| {
        let (a, b) = (q[k], q[(k + 1) % 4]);
        (a.min(b), a.max(b))
    };
    let joined =
        |p: &[u32; 4], q: &[u32; 4]| (0..4).any(|i| (0..4).any(|j| side(p, i) == side(q, j)));
    let mut low: Vec<usize> = (0..quads.len()).collect();
    loop {
        let before = low.clone();
        for i in 0..quads.len() {
            for j in 0..quads.len() {
                if joined(&quads[i], &quads[j]) {
                    low[i] = low[i].min(low[j]);
                }
            }
        }
        if low == before {
            return low;
        }
    }
}

#[test]
fn groups_by_lowest_quad() {
    for i in 0..300 {
        let mut random = Random::part(3, i);
        let mut quads = Vec::new();
        for patch in 0..6u32 {
            for k in 0..random.below(4) as u32 {
                let base = 20 * patch + 2 * k;
                quads.push([base, base + 1, base + 3, base + 2]);
            }
        }
        random.shuffle(&mut quads);
        let low = lowest(&quads);
        let components = plain::label(&quads, 1, 1);
        let firsts: Vec<usize> = components
            .iter()
            .map(|c| quads.iter().position(|q| q.contains(&c.entries[0].corner)).unwrap())
            .map(|q| low[q])
            .collect();
        assert!(firsts.windows(2).all(|w| w[0] < w[1]), "{firsts:?}");
        assert_eq!(firsts.len(), (0..quads.len()).filter(|&q| low[q] == q).count());
    }
}
