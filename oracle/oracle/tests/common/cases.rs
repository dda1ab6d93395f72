// What the tests of the cases with lent lists share.

use oracle::vectors::Vector;

/// How many cases are accepted, and how many meet the refusal, of those that a test picks.
pub fn either_side<C: Vector>(cases: &[C], row: u32, picks: impl Fn(&C) -> bool) -> (usize, usize) {
    let (mut accepted, mut refused) = (0, 0);
    for case in cases.iter().filter(|case| picks(case)) {
        match case.refusal() {
            None => accepted += 1,
            Some(refusal) => refused += (refusal.row == row) as usize,
        }
    }
    (accepted, refused)
}

/// Whether the rows before 9 let a case pass.
pub fn sound(case: &impl Vector) -> bool {
    case.refusal().is_none_or(|refusal| matches!(refusal.row, 9 | 10))
}
