// The comparisons of lists in several orders of their quads: the call beside the walk, a whole list beside its groups, each group beside
// itself in the order drawn.

use super::agreement::agreement;
use super::counts::{Hanging, Joined};
use super::groups::Group;
use super::reordered::{Alone, List, FEW};
use crate::check_labels::LABELS;
use crate::tally::{Beside, Tally};
use oracle::told::Told;
use oracle::vectors::labels::Case;
use oracle::vectors::Vector;
use oracle::walked::Walk;

/// What labels: the call that is given a whole list, and the walk that is given the quads of one group.
#[derive(Clone, Copy)]
pub struct Labellers {
    pub call: fn(&Case) -> Told<2, 3>,
    pub walk: Walk,
}

pub const LABELLERS: Labellers = Labellers { call: LABELS.ours, walk: plain::label };

/// The comparisons of a run.
pub struct Orders {
    labellers: Labellers,
    lists: u64,
    /// Lists of few quads, in every order.
    few: u64,
    /// Orders beside the one drawn.
    pub orders: u64,
    /// The call beside the walk, on each list in each order.
    calls: Beside<2>,
    /// The components of a whole list beside those of its groups alone, by their lowest quads.
    alone: Tally,
    pub joined: Joined,
    pub hanging: Hanging,
}

impl Orders {
    pub fn of(labellers: Labellers) -> Orders {
        let (calls, alone, joined, hanging) = Default::default();
        Orders { labellers, lists: 0, few: 0, orders: 0, calls, alone, joined, hanging }
    }

    /// The groups where the quads stand in an order; none where the call refuses. Of the whole list the walk's components are taken, which
    /// are the call's where the two do not differ.
    fn labelled(&mut self, list: &List, order: &[usize]) -> Option<Vec<Alone>> {
        let (case, size) = (list.in_order(order), list.quads.len());
        let (ours, theirs) = ((self.labellers.call)(&case), case.answer());
        self.calls.add(&ours, &theirs, size, || list.shown(order));
        theirs.result.ok()?;
        let alone = list.alone(order, self.labellers.walk);
        let mut by_lowest: Vec<&Alone> = alone.iter().collect();
        by_lowest.sort_unstable_by_key(|group| group.lowest);
        let parts = by_lowest.iter().flat_map(|group| &group.found);
        let same = parts.eq(&theirs.components()) && alone.iter().all(|group| group.found.len() < 2);
        self.alone.add(same, size, || list.shown(order));
        Some(alone)
    }

    /// Compares a group's answers in the order drawn and in another.
    fn add_group(&mut self, list: &List, group: &Group, answers: [&Alone; 2], order: &[usize]) {
        let [first, other] = answers.map(|answer| answer.found.first());
        let found = agreement(first, other);
        let (same, size) = (found.is_ok(), list.quads.len());
        let shown = || format!("{found:?} for group {:?} of {}", group.quads, list.shown(order));
        if !group.joined {
            self.hanging.tally.add(same, size, shown);
            found.err().inspect(|&parted| self.hanging.add_parted(parted));
            return;
        }
        self.joined.tally.add(same, size, shown);
        self.joined.begun_elsewhere += u64::from(answers[0].lowest != order[answers[1].lowest]);
        if let Ok(moves) = found {
            self.joined.add_agreed(&moves, first, || list.reason(group, self.labellers.walk));
        }
    }

    /// Compares a list in these orders with the list as it is drawn. Turns and shifts can be undone and put together: where each order
    /// agrees with that one, any two do.
    pub fn add(&mut self, list: &List, orders: &[Vec<usize>]) {
        self.lists += 1;
        self.few += u64::from(list.quads.len() <= FEW);
        let rising: Vec<usize> = (0..list.quads.len()).collect();
        let Some(drawn) = self.labelled(list, &rising) else {
            return;
        };
        for order in orders {
            self.orders += 1;
            let other = self.labelled(list, order).into_iter().flatten();
            for ((group, first), other) in list.groups.iter().zip(&drawn).zip(other) {
                self.add_group(list, group, [first, &other], order);
            }
        }
    }

    /// Prints it; says whether none differs of what must not.
    #[must_use]
    pub fn print(&self) -> bool {
        println!(
            "{} lists, {} of up to {FEW} quads in every order; {} orders beside those drawn",
            self.lists, self.few, self.orders
        );
        let mut same = self.calls.print("lists in each order", &["components", "entries"]);
        same &= self.alone.print("their components beside those of the groups alone");
        same &= self.joined.print();
        self.hanging.print();
        same
    }
}
