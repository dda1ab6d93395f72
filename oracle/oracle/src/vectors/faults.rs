// Two faults of different rows at once, and all faults from a row on: the lower row wins.

use super::Vector;

pub type Fault<C> = fn(&mut C);

/// Later faults first, so that the lists are as long as they will be.
fn faulty<C: Vector>(sound: &C, faults: &[Fault<C>]) -> C {
    sound.with(|case| faults.iter().rev().for_each(|fault| fault(case)))
}

/// A sound case with faults that stand in order of their rows: all from each on, each by itself,
/// and each with each later one.
pub fn add<C: Vector>(cases: &mut Vec<C>, sound: &C, faults: &[Fault<C>]) {
    for (i, &low) in faults.iter().enumerate() {
        cases.push(faulty(sound, &faults[i..]));
        cases.push(faulty(sound, &[low]));
        for &high in &faults[i + 1..] {
            cases.push(faulty(sound, &[low, high]));
        }
    }
}
