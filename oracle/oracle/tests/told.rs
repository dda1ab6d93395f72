// Two answers are held together whole: what they tell, and every word of every list.

use oracle::judge::Refusal;
use oracle::told::Told;

fn told(count: usize, last: &[u32]) -> Told<1, 2> {
    Told { result: Ok([count]), lists: [vec![0, 0], last.to_vec()] }
}

#[test]
fn where_answers_part() {
    let right = told(1, &[7, 8, 9]);
    let said = |other: &Told<1, 2>| right.parted(other).unwrap_or_default();
    assert_eq!(right.parted(&right.clone()), None);
    assert!(said(&told(2, &[7, 8, 9])).contains("Ok([2])"));
    assert_eq!(said(&told(1, &[7, 8, 0])), "list 1, word 2: Some(9) and Some(0)");
    assert_eq!(said(&told(1, &[7, 8])), "list 1, word 2: Some(9) and None");
    let refused = |refusal| Told { result: Err(refusal), ..right.clone() };
    let twin = Refusal { row: 11, place: 1, beside: 2 };
    assert!(right.parted(&refused(twin)).is_some());
    let others =
        [Refusal { row: 12, ..twin }, Refusal { place: 2, ..twin }, Refusal { beside: 0, ..twin }];
    assert!(others.iter().all(|&other| refused(twin).parted(&refused(other)).is_some()));
}
