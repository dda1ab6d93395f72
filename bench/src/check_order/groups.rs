// The groups of a quad list, found by joining its quads two by two; and whether sides run in opposite senses alone already join a group.
// Nothing of it is the archive's or the Rust walk's.

use oracle::generate::patterns::Quad;

/// Classes of the numbers below a count, joined two by two; each is named by its lowest number.
struct Classes(Vec<usize>);

impl Classes {
    fn of(count: usize) -> Classes {
        Classes((0..count).collect())
    }

    fn name(&mut self, mut number: usize) -> usize {
        while self.0[number] != number {
            self.0[number] = self.0[self.0[number]];
            number = self.0[number];
        }
        number
    }

    fn join(&mut self, a: usize, b: usize) {
        let (a, b) = (self.name(a), self.name(b));
        self.0[a.max(b)] = a.min(b);
    }
}

/// A side of a quad: its corners, the lower first; whether the quad runs it from the lower to the higher; the quad.
type Side = ([u32; 2], bool, usize);

/// All sides, those with the same corners next to each other. No quad has two of these, as it names no corner twice.
fn sides(quads: &[Quad]) -> Vec<Side> {
    let side = |q: usize, k: usize| {
        let (from, to) = (quads[q][k], quads[q][(k + 1) % 4]);
        ([from.min(to), from.max(to)], from < to, q)
    };
    let mut sides: Vec<Side> = (0..4 * quads.len()).map(|i| side(i / 4, i % 4)).collect();
    sides.sort_unstable();
    sides
}

/// The quads of a group, rising, and whether any two of them are joined through sides run in opposite senses. Else it hangs on a side run
/// alike.
#[derive(Debug, PartialEq, Eq)]
pub struct Group {
    pub quads: Vec<usize>,
    pub joined: bool,
}

/// Joins every two quads that have the same side: in the first classes whichever way each runs it, in the second where one runs it
/// the other way.
fn join_on([touching, opposite]: &mut [Classes; 2], side: &[Side]) {
    for (i, &(_, sense, p)) in side.iter().enumerate() {
        for &(_, other, q) in &side[..i] {
            touching.join(p, q);
            if sense != other {
                opposite.join(p, q);
            }
        }
    }
}

/// The groups, by their lowest quads.
pub fn groups(quads: &[Quad]) -> Vec<Group> {
    let mut classes = [Classes::of(quads.len()), Classes::of(quads.len())];
    sides(quads).chunk_by(|a, b| a.0 == b.0).for_each(|side| join_on(&mut classes, side));
    let [mut touching, mut opposite] = classes;
    let mut groups: Vec<Group> = Vec::new();
    let mut places = vec![0; quads.len()];
    for q in 0..quads.len() {
        let lowest = touching.name(q);
        if lowest == q {
            places[q] = groups.len();
            groups.push(Group { quads: Vec::new(), joined: true });
        }
        let group = &mut groups[places[lowest]];
        group.quads.push(q);
        group.joined &= opposite.name(q) == opposite.name(lowest);
    }
    groups
}

#[cfg(test)]
mod tests {
    use super::*;
    use oracle::demand;
    use oracle::generate::quad_lists::{quad_list, QUAD_KINDS};
    use oracle::random::Random;

    /// One quad runs a side from a to b, the other from b to a.
    fn opposite(p: &Quad, q: &Quad) -> bool {
        let runs = |quad: &Quad, a: u32, b: u32| (0..4).any(|k| quad[k] == a && quad[(k + 1) % 4] == b);
        (0..4).any(|k| runs(q, p[(k + 1) % 4], p[k]))
    }

    /// Whether steps across such sides lead from a group's first quad to all of it.
    fn all_joined(quads: &[Quad], group: &[usize]) -> bool {
        let mut met = vec![group[0]];
        let mut done = 0;
        while done < met.len() {
            let from = quads[met[done]];
            let next = group.iter().filter(|&q| opposite(&from, &quads[*q]) && !met.contains(q));
            let next: Vec<usize> = next.copied().collect();
            met.extend(next);
            done += 1;
        }
        met.len() == group.len()
    }

    #[test]
    fn groups_are_those_of_the_words() {
        let mut counts = [0, 0];
        for i in 0..700 {
            let quads = quad_list(i % QUAD_KINDS.len(), &mut Random::part(1, i as u64)).quads;
            let wanted =
                demand::groups(&quads).into_iter().map(|group| Group { joined: all_joined(&quads, &group), quads: group });
            let wanted: Vec<Group> = wanted.collect();
            wanted.iter().for_each(|group| counts[usize::from(group.joined)] += 1);
            assert_eq!(groups(&quads), wanted, "{quads:?}");
        }
        assert!(counts.iter().all(|&count| count > 100), "{counts:?}");
    }

    /// Two quads that run a side alike are joined by a third that runs it the other way, and through others than the two.
    #[test]
    fn joined_by_others() {
        let joined = |quads: &[Quad]| groups(quads).iter().map(|group| group.joined).collect::<Vec<_>>();
        let [alike, beside, back] = [[0, 1, 2, 3], [0, 1, 4, 5], [1, 0, 6, 7]];
        assert_eq!(joined(&[alike, beside]), [false]);
        assert_eq!(joined(&[alike, beside, back]), [true]);
        assert_eq!(joined(&[alike, beside, [2, 1, 4, 8], [1, 4, 9, 10]]), [false]);
        assert_eq!(joined(&[alike, beside, [2, 1, 4, 8], [4, 1, 9, 10]]), [true]);
        assert_eq!(joined(&[alike, [0, 8, 9, 10], alike]), [false, true]);
    }
}
