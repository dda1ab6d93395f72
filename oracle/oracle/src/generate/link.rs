// Finds twins: half-edges that run between the same corners in opposite senses.

use std::collections::HashMap;

use crate::random::Random;
use frame::NONE;

/// The twins of a triangle list. Where several half-edges would do, one is taken at random;
/// `left_out` of a hundred pairs are left unlinked.
pub fn link(triangles: &[[u32; 3]], left_out: usize, random: &mut Random) -> Vec<u32> {
    let mut twins = vec![NONE; 3 * triangles.len()];
    let mut waiting: HashMap<(u32, u32), Vec<usize>> = HashMap::new();
    for (t, corners) in triangles.iter().enumerate() {
        for k in 0..3 {
            let (from, to) = (corners[k], corners[(k + 1) % 3]);
            let e = 3 * t + k;
            let partners = waiting.entry((to, from)).or_default();
            if partners.is_empty() {
                waiting.entry((from, to)).or_default().push(e);
                continue;
            }
            let twin = partners.swap_remove(random.below(partners.len()));
            if random.below(100) >= left_out {
                twins[e] = twin as u32;
                twins[twin] = e as u32;
            }
        }
    }
    twins
}
