// Lists whose sides have given lengths: what groups they are, as the third filter sees them, and
// that every length is there to the bit.

use oracle::demand::groups;
use oracle::random::Random;
use oracle::vectors::filters::{
    apart, beyond, chain, joined, large_median_case, powers, ring, triangles, Case,
};
use oracle::vectors::{moved, OverQuads};
use oracle::words::filters::{cell_size, sides};
use std::collections::BTreeMap;

/// The quads of each group that the second filter leaves.
fn sizes(case: &Case) -> Vec<usize> {
    let [_, left, _] = ruled::filter(&case.records(), &case.frame);
    groups(&left).iter().map(Vec::len).collect()
}

/// How often each length comes, by its word.
fn counted(case: &Case) -> BTreeMap<u32, usize> {
    let mut counts = BTreeMap::new();
    for length in case.records().iter().flat_map(|quad| sides(&case.frame, quad)) {
        *counts.entry(length.to_bits()).or_default() += 1;
    }
    counts
}

#[test]
fn a_ring_has_each_length_eight_times() {
    let rising: Vec<f32> = (0..2_048).map(|i| moved(10.0, i)).collect();
    for lengths in [&rising[..4], &rising[..5], &rising, &beyond(10.0), &powers(-74, 20, 1)] {
        let case = ring(lengths);
        assert_eq!(sizes(&case), [2 * lengths.len()]);
        let wanted = lengths.iter().map(|length| (length.to_bits(), 8));
        assert_eq!(counted(&case), wanted.collect());
    }
}

#[test]
fn a_chain_has_its_inner_lengths_four_times() {
    let case = chain(&[3.0, 1.0, 2.0, 4.0]);
    assert_eq!(sizes(&case), [3]);
    let wanted = [(1.0f32, 4), (2.0, 4), (3.0, 2), (4.0, 2)];
    assert_eq!(counted(&case), wanted.map(|(length, count)| (length.to_bits(), count)).into());
}

#[test]
fn quads_apart_are_groups_of_one() {
    for count in [31, 32, 1_024, 4_096] {
        let points: Vec<(f32, f32)> = (0..count).map(|c| (c as f32, 0.0)).collect();
        assert_eq!(sizes(&apart(&points)), vec![1; count]);
    }
}

#[test]
fn three_sides_of_a_triangle_are_within_a_float() {
    let case = apart(&triangles(4_096, 0.0));
    assert_eq!(sizes(&case), vec![1; 4_096]);
    for quad in case.records() {
        let mut words = sides(&case.frame, &quad).map(f32::to_bits);
        words.sort();
        assert!(words[0] == 0 && words[3] - words[1] <= 1, "{words:?}");
        assert!(words.contains(&10f32.to_bits()));
    }
}

#[test]
fn lists_side_by_side_stay_apart() {
    let case = joined(&vec![ring(&powers(0, 4, 1)); 409]);
    assert_eq!(sizes(&case), vec![10; 409]);
    assert_eq!(case.frame.corners(), 4_090);
}

/// The large lists of long comparisons are answered as the words say.
#[test]
fn large_lists() {
    for part in 0..4 {
        let case = large_median_case(&mut Random::part(1, part));
        let [legal, left, kept] = ruled::filter(&case.records(), &case.frame);
        assert!(case.records().len() >= 4_090 && legal == case.records());
        assert_eq!(cell_size(&case.frame, &left), kept);
    }
}
