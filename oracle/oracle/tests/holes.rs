// Document 02's holes: the pictures have as many as one counts in them, whichever way they are
// turned, and the two counts give the same.

use frame::{holes, places, Component, Entry};
use oracle::demand;
use oracle::generate::cuts::{cut_quads, cuts, large_cut};
use oracle::generate::plans::Plan;
use oracle::judge::judge;
use oracle::quads_text::label_text;
use oracle::random::Random;
use oracle::stages::Build;
use oracle::vectors::frames::planned;
use oracle::vectors::hole_shapes::{series, shapes};
use oracle::words;

fn counted(components: &[Component]) -> Vec<u32> {
    components.iter().map(|component| component.holes).collect()
}

#[test]
fn pictures_have_the_holes_that_one_sees() {
    for shape in shapes() {
        for quarters in 0..4 {
            let plan = shape.plan().turned(quarters);
            for plan in [plan.clone(), plan.backwards()] {
                // the island comes first from the last quad on
                let mut found = counted(&plain::label(&plan.quads, 0, 0));
                found.sort_by_key(|holes| std::cmp::Reverse(*holes));
                assert_eq!(found, shape.holes, "{} turned by {quarters}", shape.name);
            }
            let mut frame = planned(&plan);
            (frame.params.least_quads, frame.params.least_corners) = (0, 0);
            let stages = Build::Ruled.run(&frame);
            assert_eq!(stages.scale.len(), plan.quads.len(), "{}", shape.name);
            assert_eq!(counted(&stages.components), shape.holes, "{}", shape.name);
        }
    }
}

#[test]
fn walls_and_combs() {
    let by_list = |plan: Plan| {
        let found = plain::label(&plan.quads, 0, 0);
        (counted(&found), plan.spots.len())
    };
    assert_eq!(by_list(Plan::ring(300, 5)), (vec![296], 1_204));
    assert_eq!(by_list(Plan::ring(514, 514)), (vec![510 * 510], 4_096));
    assert_eq!(by_list(Plan::open_ring(512, 1_024)), (vec![0], 4_088));
    assert_eq!(by_list(Plan::comb(16, 14, 112)), (vec![0], 4_068));
}

/// As many corners as there may be, or not far below, and never more.
#[test]
fn large_sheets() {
    let (mut holed, mut most) = (0, 0);
    for number in 0..60 {
        let plan = large_cut(&mut Random::part(73, number));
        let found = plain::label(&plan.quads, 0, 0);
        assert!((3_400..=4_096).contains(&plan.spots.len()), "{}", plan.spots.len());
        assert_eq!(found.len(), 1);
        holed += (found[0].holes > 0) as usize;
        most = most.max(places(&found[0].entries).len());
    }
    assert!((10..50).contains(&holed) && most > 400_000, "{holed} {most}");
}

/// Document 01's list with place (2,1) claimed twice, which has nothing to its right.
#[test]
fn the_example() {
    let said = label_text("0 1 2 3\n0 3 4 5\n0 5 6 7\n0 7 8 9\n", 1, 8, 10);
    assert!(said.starts_with("components 1\ncomponent 0 8 0\n"), "{said}");
    assert!(!said.contains("\n2 1 ") && said.contains("\n2 0 ") && said.contains("\n2 2 "));
}

/// Entries at these places, whose corners do not matter.
fn at(places: &[(i32, i32)]) -> Vec<Entry> {
    places.iter().map(|&(u, v)| Entry { u, v, corner: 0 }).collect()
}

/// No connected sheet looks so: the count alone.
#[test]
fn four_questions() {
    assert_eq!(holes(&[]), 0);
    assert_eq!(holes(&at(&[(0, 0)])), 0);
    let cross = [(0, 1), (2, 1), (1, 0), (1, 2)];
    assert_eq!(holes(&at(&cross)), 1);
    for without in 0..4 {
        let three: Vec<_> = (0..4).filter(|&k| k != without).map(|k| cross[k]).collect();
        assert_eq!(holes(&at(&three)), 0);
    }
    let asked = places(&at(&cross))[4];
    assert!(asked.is_hole() && asked.beside == [true; 4] && !asked.held);
    let far = [(0, 9), (30, 9), (7, 0), (7, 40)];
    assert_eq!(holes(&at(&far)), 1);
    assert_eq!(holes(&at(&[&far[..], &[(7, 9)]].concat())), 0);
    assert_eq!(holes(&at(&[(0, 0), (2, 0), (0, 2), (2, 2)])), 0);
}

/// The walk's components with the first count beside the demand's with the second.
fn same(quads: &[[u32; 4]], least_corners: u32) -> Vec<Component> {
    let found = plain::label(quads, 0, least_corners);
    assert_eq!(found, demand::components(&demand::fates(quads, 0, least_corners)));
    found
}

#[test]
fn both_counts_on_drawn_sheets() {
    let (mut components, mut holed) = (0, 0);
    for number in 0..600 {
        let mut random = Random::part(71, number);
        for component in same(&cut_quads(&mut random), 0) {
            components += 1;
            holed += (component.holes > 0) as usize;
        }
        let frame = cuts(80, &mut random);
        assert_eq!(judge(&frame), None);
        assert_eq!(words::run(&frame).components, Build::Ruled.run(&frame).components);
    }
    assert!(4 * holed > components, "{holed} of {components}");
    series().iter().for_each(|plan| assert!(!same(&plan.quads, 0).is_empty()));
}
