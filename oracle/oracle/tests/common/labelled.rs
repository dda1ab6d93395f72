// What a call that labels leaves of a workspace, a component list and an entry list, held to components that were found apart from it.

use frame::Component;
use oracle::judge::Refusal;
use oracle::told::Told;

/// The words of the components and of their entries.
pub fn words_of(components: Vec<Component>) -> [Vec<u32>; 2] {
    let (mut records, mut listed) = (Vec::new(), Vec::new());
    for component in components {
        records.extend([listed.len() as u32 / 3, component.entries.len() as u32, component.holes]);
        for entry in component.entries {
            listed.extend([entry.u as u32, entry.v as u32, entry.corner]);
        }
    }
    [records, listed]
}

/// A list whose front is this, and whose rest is as before.
fn fronted(front: &[u32], before: &[u32]) -> Vec<u32> {
    [front, &before[front.len()..]].concat()
}

/// What each refusal leaves, and success, of the lists lent: the workspace, the components, the entries. `wanted` is what is to be written.
pub fn as_wanted(found: Told<2, 3>, lent: [&Vec<u32>; 3], wanted: impl Fn() -> [Vec<u32>; 2]) {
    let [work, components, entries] = lent;
    let zero = vec![0; work.len()];
    let kept = |work: &Vec<u32>| [work.clone(), components.clone(), entries.clone()];
    let left = found.lists;
    match found.result {
        Ok(counts) => {
            let [records, listed] = wanted();
            assert_eq!(counts, [records.len() / 3, listed.len() / 3]);
            assert_eq!(left[1..], [fronted(&records, components), fronted(&listed, entries)]);
            assert_eq!(left[0], zero);
        }
        Err(Refusal { row: row @ (9 | 10), place, .. }) => {
            let list = [components, entries][row as usize - 9];
            assert_eq!(place as usize, wanted()[row as usize - 9].len() / 3);
            assert!(list.len() / 3 < place as usize);
            assert_eq!(left, kept(&zero));
        }
        Err(_) => assert_eq!(left, kept(work)),
    }
}
