// The labelling of drawn lists in several orders of their quads, held together group by group: a group joined through sides run in opposite
// senses must be kept or dropped alike and list the same corners, up to a turn and a shift; of the others it is counted how many do not.
// In every order the archive's call stands beside the Rust's own walk, every word.

mod agreement;
mod counts;
mod groups;
mod lists;
mod orders;
mod reordered;

use oracle::random::Random;
use orders::{Orders, LABELLERS};
use reordered::{other_orders, List};

/// Compares so many lists.
fn run(count: u64, seed: u64) -> Orders {
    let mut all = Orders::of(LABELLERS);
    for number in 0..count {
        let mut random = Random::part(seed, number);
        let list = List::of(number, lists::drawn(&mut random));
        let orders = other_orders(list.quads.len(), &mut random);
        all.add(&list, &orders);
    }
    all
}

/// Says whether none of so many lists differs in what must not.
pub fn check(count: u64, seed: u64) -> bool {
    run(count, seed).print()
}

#[cfg(test)]
mod tests {
    use super::*;
    use agreement::tests::FAULTS;
    use agreement::{agreement, Move};
    use counts::Joined;
    use frame::Component;
    use groups::Group;
    use oracle::generate::patterns::Quad;
    use oracle::told::Told;
    use oracle::vectors::labels::Case;
    use oracle::vectors::OverQuads;
    use oracle::walked::Walk;
    use orders::Labellers;

    /// Two quads joined by a side run in opposite senses.
    const JOINED: [Quad; 2] = [[0, 1, 2, 3], [2, 1, 4, 5]];

    /// Document 01's quads, which run side 1-2 alike.
    const ALIKE: [Quad; 2] = [[0, 1, 2, 3], [1, 2, 5, 4]];

    /// A list in the order given and in every other.
    fn in_every_order(quads: &[Quad], labellers: Labellers) -> Orders {
        let list = List::of(0, Case::of(quads));
        let mut all = Orders::of(labellers);
        all.add(&list, &other_orders(quads.len(), &mut Random::new(1)));
        all
    }

    /// The corners of the only component where the quads stand in an order, by the archive.
    fn corners_listed(quads: &[Quad], order: &[usize]) -> Vec<u32> {
        let told = (LABELLERS.call)(&List::of(0, Case::of(quads)).in_order(order));
        let [component] = told.components().try_into().expect("one component");
        let mut corners: Vec<u32> = component.entries.iter().map(|entry| entry.corner).collect();
        corners.sort_unstable();
        corners
    }

    #[test]
    fn document_01s_group_need_not_agree() {
        assert_eq!(corners_listed(&ALIKE, &[0, 1]), [0, 1, 2, 3]);
        assert_eq!(corners_listed(&ALIKE, &[1, 0]), [1, 2, 4, 5]);
        let all = in_every_order(&ALIKE, LABELLERS);
        assert_eq!((all.orders, all.hanging.parted), (1, [0, 1, 0]));
        assert!(all.print());
    }

    #[test]
    fn a_joined_group_is_turned() {
        let list = List::of(0, Case::of(&JOINED));
        let [first, other] = [[0, 1], [1, 0]].map(|order| list.alone(&order, LABELLERS.walk).remove(0).found);
        assert_eq!(agreement(first.first(), other.first()), Ok(vec![Move { turns: 1, shift: (1, 0) }]));
        let all = in_every_order(&JOINED, LABELLERS);
        assert_eq!((all.joined.begun_elsewhere, all.joined.turned), (1, [0, 1, 0, 0]));
        assert!(all.print());
    }

    /// The walk with a fault where the quads do not stand in rising order.
    fn wrong<const FAULT: usize>(quads: &[Quad], least_quads: u32, least_corners: u32) -> Vec<Component> {
        let mut found = plain::label(quads, least_quads, least_corners);
        if !quads.is_sorted() {
            found.retain_mut(|component| FAULTS[FAULT].0(&mut component.entries));
        }
        found
    }

    /// In a joined group each is told; in one that hangs on a side run alike it is not asked for.
    #[test]
    fn an_order_that_changes_the_answer_is_told() {
        let walks: [Walk; FAULTS.len()] = [wrong::<0>, wrong::<1>, wrong::<2>, wrong::<3>, wrong::<4>, wrong::<5>, wrong::<6>];
        for walk in walks {
            let labellers = Labellers { walk, ..LABELLERS };
            let joined = in_every_order(&JOINED, labellers);
            assert!(!joined.joined.print() && !joined.print());
            let hanging = in_every_order(&ALIKE, labellers);
            assert!(hanging.joined.print() && hanging.hanging.parted != [0; 3]);
        }
    }

    /// The archive's answer with the first two entries changed for each other in one of the orders.
    fn swapped(case: &Case) -> Told<2, 3> {
        let mut told = (LABELLERS.call)(case);
        if !case.records().is_sorted() {
            (0..3).for_each(|word| told.lists[2].swap(word, 3 + word));
        }
        told
    }

    #[test]
    fn a_wrong_call_is_told() {
        assert!(in_every_order(&JOINED, LABELLERS).print());
        assert!(!in_every_order(&JOINED, Labellers { call: swapped, ..LABELLERS }).print());
    }

    /// Two groups taken for one, and one taken for two: of the list the walk gives other components than of these groups.
    #[test]
    fn wrong_groups_are_told() {
        let group = |quads: &[usize]| Group { quads: quads.to_vec(), joined: true };
        let wrong = |quads: &[Quad], groups: Vec<Group>| {
            let mut all = Orders::of(LABELLERS);
            all.add(&List { groups, ..List::of(0, Case::of(quads)) }, &[]);
            !all.print()
        };
        let apart = [[0, 1, 2, 3], [0, 4, 5, 6]];
        assert!(wrong(&apart, vec![group(&[0, 1])]) && !wrong(&apart, vec![group(&[0]), group(&[1])]));
        assert!(wrong(&JOINED, vec![group(&[0]), group(&[1])]) && !wrong(&JOINED, vec![group(&[0, 1])]));
    }

    /// A short run meets all that is told apart.
    #[test]
    fn every_count_is_met() {
        let all = run(1_000, 1);
        let Joined { begun_elsewhere, dropped, turned, any_turn, .. } = all.joined;
        assert!([begun_elsewhere].iter().chain(&dropped).chain(&turned).chain(&any_turn).all(|&count| count > 20));
        assert!(all.hanging.parted.iter().all(|&count| count > 20));
    }
}
