// What two answers to one group have in common: none has a component, or both list the same corners, and quarter turns with a shift take
// every corner's pair from the one to the other.

use frame::Component;

type Pair = (i32, i32);

/// Quarter turns, each of which takes (x, y) to (-y, x), then a shift.
#[derive(Clone, Copy, Debug, PartialEq, Eq)]
pub struct Move {
    pub turns: usize,
    pub shift: Pair,
}

impl Move {
    /// The only one with so many turns that can take one pair to the other.
    fn taking((from, to): (Pair, Pair), turns: usize) -> Move {
        let (u, v) = Move { turns, shift: (0, 0) }.of(from);
        Move { turns, shift: (to.0 - u, to.1 - v) }
    }

    fn of(&self, pair: Pair) -> Pair {
        let (u, v) = (0..self.turns).fold(pair, |(x, y), _| (-y, x));
        (u + self.shift.0, v + self.shift.1)
    }
}

/// In what two answers part, asked in this order.
#[derive(Clone, Copy, Debug, PartialEq, Eq)]
pub enum Parted {
    /// One has a component and the other none.
    Kept,
    Corners,
    Pairs,
}

/// The corners that a component lists, rising, with their pairs.
fn listed(component: &Component) -> Vec<(u32, Pair)> {
    let mut listed: Vec<(u32, Pair)> = component.entries.iter().map(|entry| (entry.corner, (entry.u, entry.v))).collect();
    listed.sort_unstable();
    listed
}

/// The moves that take one component to another, of each number of turns at most one. Of two entries or more only one turn can fit, of one
/// or none every turn does.
fn moves(from: &Component, to: &Component) -> Result<Vec<Move>, Parted> {
    let (from, to) = (listed(from), listed(to));
    if !from.iter().map(|entry| entry.0).eq(to.iter().map(|entry| entry.0)) {
        return Err(Parted::Corners);
    }
    let pairs: Vec<(Pair, Pair)> = from.iter().zip(&to).map(|(from, to)| (from.1, to.1)).collect();
    let first = pairs.first().copied().unwrap_or_default();
    let fits = |by: &Move| pairs.iter().all(|&(from, to)| by.of(from) == to);
    let moves: Vec<Move> = (0..4).map(|turns| Move::taking(first, turns)).filter(fits).collect();
    if moves.is_empty() {
        return Err(Parted::Pairs);
    }
    Ok(moves)
}

/// The moves that take one answer to a group to another; none where both drop it.
pub fn agreement(from: Option<&Component>, to: Option<&Component>) -> Result<Vec<Move>, Parted> {
    match (from, to) {
        (None, None) => Ok(Vec::new()),
        (Some(from), Some(to)) => moves(from, to),
        _ => Err(Parted::Kept),
    }
}

#[cfg(test)]
pub mod tests {
    use super::*;
    use frame::Entry;

    /// Spoils a component; says whether one is left.
    type Spoil = fn(&mut Vec<Entry>) -> bool;

    /// What each does to a component of four corners or more in rows.
    pub const FAULTS: [(Spoil, Parted); 7] = [
        // mirrored in a diagonal, in a row
        (|entries| changed(entries, |(u, v)| (v, u)), Parted::Pairs),
        (|entries| changed(entries, |(u, v)| (-u, v)), Parted::Pairs),
        // one pair off by one, either way
        (|entries| changed(&mut entries[..1], |(u, v)| (u + 1, v)), Parted::Pairs),
        (|entries| changed(&mut entries[..1], |(u, v)| (u, v - 1)), Parted::Pairs),
        // the first half turned by one quarter, the rest by none
        (|entries| changed(half(entries), |(u, v)| (-v, u)), Parted::Pairs),
        (|entries| entries.pop().is_some(), Parted::Corners),
        (|_| false, Parted::Kept),
    ];

    fn half(entries: &mut [Entry]) -> &mut [Entry] {
        let count = entries.len() / 2;
        &mut entries[..count]
    }

    fn changed(entries: &mut [Entry], to: impl Fn(Pair) -> Pair) -> bool {
        entries.iter_mut().for_each(|entry| (entry.u, entry.v) = to((entry.u, entry.v)));
        true
    }

    /// Six corners in two rows, the highest first.
    fn rows() -> Component {
        Component::of((0..6).map(|i| Entry { u: i % 3, v: i / 3, corner: 9 - i as u32 }).collect())
    }

    fn moved(component: &Component, by: Move) -> Component {
        let mut component = component.clone();
        changed(&mut component.entries, |pair| by.of(pair));
        component
    }

    #[test]
    fn the_turn_and_the_shift_are_found() {
        let shifts = [(0, 0), (1, 0), (-3, 5)];
        for by in (0..4).flat_map(|turns| shifts.map(|shift| Move { turns, shift })) {
            assert_eq!(agreement(Some(&rows()), Some(&moved(&rows(), by))), Ok(vec![by]));
        }
    }

    #[test]
    fn every_turn_fits_one_entry_and_none() {
        for count in 0..3 {
            let some = Component { entries: rows().entries[..count].to_vec(), holes: 0 };
            let found = agreement(Some(&some), Some(&moved(&some, Move { turns: 2, shift: (3, 3) }))).map(|moves| moves.len());
            assert_eq!(found, Ok(if count < 2 { 4 } else { 1 }));
        }
        assert_eq!(agreement(None, None), Ok(Vec::new()));
    }

    /// Beside the component itself and beside a moved one, whichever of the two is spoilt.
    #[test]
    fn every_fault_is_told() {
        for (spoil, parted) in FAULTS {
            for turns in 0..4 {
                let mut wrong = moved(&rows(), Move { turns, shift: (2, -7) });
                let wrong = spoil(&mut wrong.entries).then_some(&wrong);
                assert_eq!(agreement(Some(&rows()), wrong), Err(parted));
                assert_eq!(agreement(wrong, Some(&rows())), Err(parted));
            }
        }
    }
}
