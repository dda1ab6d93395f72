// Texts whose twins are at fault: the rows told apart, and each beside faults of other rows.

use crate::text::{fits, write};
use crate::vectors::frames::twin_orders;
use crate::vectors::twin_rows;

pub fn texts() -> Vec<Vec<u8>> {
    let mut frames = Vec::new();
    twin_rows::faults(&mut |_, changed| frames.push(changed));
    let mut orders = Vec::new();
    twin_orders(&mut orders);
    frames.extend(orders.into_iter().map(|case| case.frame));
    let mut texts: Vec<Vec<u8>> =
        frames.iter().filter(|frame| fits(frame)).map(|frame| write(frame).into_bytes()).collect();
    let mut seen = std::collections::HashSet::new();
    texts.retain(|text| seen.insert(text.clone()));
    texts
}
