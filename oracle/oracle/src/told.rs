// What a call tells and leaves, whole, so that two answers to one call can be held together.

use crate::judge::Refusal;
use frame::{Component, Entry};

/// The counts that a call gives or its refusal, and the final content of every list that it may
/// change.
#[derive(Clone, Debug, PartialEq, Eq)]
pub struct Told<const COUNTS: usize, const LISTS: usize> {
    pub result: Result<[usize; COUNTS], Refusal>,
    pub lists: [Vec<u32>; LISTS],
}

impl<const COUNTS: usize, const LISTS: usize> Told<COUNTS, LISTS> {
    /// What a call tells and leaves that is lent these lists.
    pub fn by(
        mut lists: [Vec<u32>; LISTS],
        call: impl FnOnce(&mut [Vec<u32>; LISTS]) -> Result<[usize; COUNTS], Refusal>,
    ) -> Self {
        let result = call(&mut lists);
        Told { result, lists }
    }

    /// Where two answers part first: in what they tell, or at a word of a list.
    pub fn parted(&self, other: &Self) -> Option<String> {
        if self.result != other.result {
            return Some(format!("{:?} and {:?}", self.result, other.result));
        }
        let pairs = self.lists.iter().zip(&other.lists).enumerate();
        let mut parted = pairs.filter(|(_, (a, b))| a != b);
        parted.next().map(|(list, (a, b))| first_word(list, a, b))
    }
}

impl Told<0, 2> {
    /// What a classes call tells and leaves that is lent a class list and fits, these by their bits.
    pub fn by_classes(
        classes: &[u32],
        fits: &[f32],
        call: impl FnOnce(&mut [u32], &mut [f32]) -> Result<(), Refusal>,
    ) -> Self {
        let (mut classes, mut fits) = (classes.to_vec(), fits.to_vec());
        let result = call(&mut classes, &mut fits).map(|()| []);
        Told { result, lists: [classes, fits.iter().map(|fit| fit.to_bits()).collect()] }
    }
}

impl Told<2, 3> {
    /// The components that a call which labels has written; none where it refused.
    pub fn components(&self) -> Vec<Component> {
        let [_, records, listed] = &self.lists;
        let (records, listed) = (records.as_chunks().0, listed.as_chunks().0);
        let entry = |&[u, v, corner]: &[u32; 3]| Entry { u: u as i32, v: v as i32, corner };
        let component = |&[before, count, holes]: &[u32; 3]| {
            let own = &listed[before as usize..][..count as usize];
            Component { entries: own.iter().map(entry).collect(), holes }
        };
        let count = self.result.map_or(0, |[components, _]| components);
        records[..count].iter().map(component).collect()
    }
}

fn first_word(list: usize, a: &[u32], b: &[u32]) -> String {
    let equal = a.iter().zip(b).take_while(|(a, b)| a == b).count();
    format!("list {list}, word {equal}: {:?} and {:?}", a.get(equal), b.get(equal))
}
