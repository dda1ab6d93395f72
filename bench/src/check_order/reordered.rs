// A quad list put into other orders, which move whole quads, and its groups where they stand then.

use super::groups::{groups, Group};
use frame::Component;
use oracle::generate::patterns::Quad;
use oracle::random::Random;
use oracle::vectors::labels::Case;
use oracle::vectors::OverQuads;
use oracle::walked::Walk;

/// Of up to so many quads every order is tried.
pub const FEW: usize = 4;

/// From so many quads on a call takes long, and fewer orders are drawn.
const MANY: usize = 500;

/// All orders of so many quads, the rising one first.
fn every_order(count: usize) -> Vec<Vec<usize>> {
    let put = |order: &Vec<usize>, last: usize, place: usize| [&order[..place], &[last], &order[place..]].concat();
    (0..count).fold(vec![Vec::new()], |orders, last| {
        orders.iter().flat_map(|order| (0..=last).rev().map(move |place| put(order, last, place))).collect()
    })
}

/// Orders of so many quads other than the one they stand in: of few quads every one; of more the reverse and five drawn ones, of many the
/// reverse and two.
pub fn other_orders(count: usize, random: &mut Random) -> Vec<Vec<usize>> {
    if count <= FEW {
        return every_order(count).split_off(1);
    }
    let drawn = if count < MANY { 5 } else { 2 };
    let mut orders: Vec<Vec<usize>> = vec![(0..count).collect(); 1 + drawn];
    orders[0].reverse();
    orders[1..].iter_mut().for_each(|order| random.shuffle(order));
    orders
}

/// A list as it is drawn, with its number and its groups.
pub struct List {
    pub number: u64,
    pub case: Case,
    pub quads: Vec<Quad>,
    pub groups: Vec<Group>,
}

/// A group where the quads stand in an order: the place of its lowest quad, and what the walk gives its quads alone, a component or none.
pub struct Alone {
    pub lowest: usize,
    pub found: Vec<Component>,
}

impl List {
    pub fn of(number: u64, case: Case) -> List {
        let quads = case.records();
        List { number, case, groups: groups(&quads), quads }
    }

    pub fn shown(&self, order: &[usize]) -> String {
        let Case { least_quads, least_corners, corners, .. } = self.case;
        let least = format!("least {least_quads} and {least_corners} of {corners} corners");
        format!("list {}, {least}, in order {order:?}: {:?}", self.number, self.quads)
    }

    /// The call's input where the quads stand in an order.
    pub fn in_order(&self, order: &[usize]) -> Case {
        let quads = order.iter().flat_map(|&quad| self.quads[quad]).collect();
        Case { quads, ..self.case.clone() }
    }

    /// The groups where the quads stand in an order.
    pub fn alone(&self, order: &[usize], walk: Walk) -> Vec<Alone> {
        let mut places = vec![0; order.len()];
        order.iter().enumerate().for_each(|(place, &quad)| places[quad] = place);
        let alone = |group: &Group| {
            let mut own: Vec<usize> = group.quads.iter().map(|&quad| places[quad]).collect();
            own.sort_unstable();
            let quads: Vec<Quad> = own.iter().map(|&place| self.quads[order[place]]).collect();
            Alone { lowest: own[0], found: walk(&quads, self.case.least_quads, self.case.least_corners) }
        };
        self.groups.iter().map(alone).collect()
    }

    /// Why a group is dropped: 0 for its few quads, 1 as it has no labelling, 2 for its few corners.
    pub fn reason(&self, group: &Group, walk: Walk) -> usize {
        let quads: Vec<Quad> = group.quads.iter().map(|&quad| self.quads[quad]).collect();
        if quads.len() < self.case.least_quads as usize {
            0
        } else if walk(&quads, 0, 0).is_empty() {
            1
        } else {
            2
        }
    }
}

#[cfg(test)]
mod tests {
    use super::super::lists::drawn;
    use super::*;
    use std::collections::BTreeSet;

    #[test]
    fn few_quads_stand_in_every_order() {
        for (count, orders) in [1, 1, 2, 6, 24].into_iter().enumerate() {
            let all: BTreeSet<Vec<usize>> = every_order(count).into_iter().collect();
            let other: BTreeSet<Vec<usize>> = other_orders(count, &mut Random::new(1)).into_iter().collect();
            let rising: Vec<usize> = (0..count).collect();
            assert_eq!((all.len(), other.len()), (orders, orders - 1));
            assert!(other.is_subset(&all) && !other.contains(&rising));
        }
    }

    #[test]
    fn an_order_moves_quads_and_leaves_their_corners() {
        for i in 0..200 {
            let mut random = Random::part(1, i);
            let list = List::of(i, drawn(&mut random));
            for order in other_orders(list.quads.len(), &mut random) {
                let once: BTreeSet<usize> = order.iter().copied().collect();
                assert!(order.len() == list.quads.len() && once.into_iter().eq(0..order.len()));
                let other = list.in_order(&order);
                assert!(other.records().iter().zip(order).all(|(quad, from)| *quad == list.quads[from]));
                let rest = |case: &Case| (case.corners, case.least_quads, case.least_corners, case.lent());
                assert_eq!(rest(&other), rest(&list.case));
            }
        }
    }
}
