// Every call at its limits in a thread of as much stack as is said, beside what the thread takes for itself. A call that takes more runs
// into the page past the stack, and the program ends by a signal.

mod full;

use full::Full;
use ngeunsadok::*;
use std::thread::{scope, Builder};

const KIB: usize = 1_024;
/// For the thread itself: its start, its closure, the printing of a failure.
const OWN: usize = 16 * KIB;

fn within<T: Send>(stack: usize, call: impl FnOnce() -> T + Send) -> T {
    scope(|threads| {
        let thread = Builder::new().stack_size(stack + OWN).spawn_scoped(threads, call).expect("a thread");
        thread.join().expect("the call's answer")
    })
}

#[test]
fn single_numbers() {
    let axis = Axis { angle: 1.0, spread: Some(0.5) };
    within(8 * KIB, || {
        root(f32::from_bits(1)).expect("a root");
        angle(-3.0, 5.0).expect("an angle");
        axis_distance(1e30, 1.0).expect("a distance");
        axis_cache([axis, axis], 1.0, SpreadRule::default()).expect("a cache");
    });
}

#[test]
fn stages() {
    let (full, params) = (Full::of(0), Params::default());
    let (mut classes, mut fits) = (vec![0; MOST_HALF_EDGES], vec![0.0; MOST_HALF_EDGES]);
    within(8 * KIB, || classify_all_edges(full.corners(), full.axes(), &full.triangles, params.edges, &mut classes, &mut fits))
        .expect("the classes");
    let mesh = Mesh { triangles: &full.triangles, twins: &full.twins, classes: &classes };
    let mut quads = vec![[0; 4]; MOST_QUADS];
    let count = within(8 * KIB, || merge_triangle_pairs(full.corners(), mesh, &mut quads)).expect("the quads");
    assert!(count > 3_900, "{count} quads");
}

#[test]
fn filters_and_labelling() {
    let (full, params) = (Full::of(0), Params::default());
    let mut work = vec![0; quad_work(MOST_QUADS, MOST_CORNERS)];
    let mut kept = vec![[0; 4]; MOST_QUADS];
    let count = within(24 * KIB, || filter_quads(full.corners(), &full.quads, params.filters, &mut work, &mut kept));
    assert!(count.is_ok_and(|count| count > 3_900));
    let (mut components, mut entries) = (vec![Component::default(); MOST_QUADS], vec![Entry::default(); 4 * MOST_QUADS]);
    let (quads, corners) = (&full.quads, MOST_CORNERS as u32);
    within(24 * KIB, || label_components(quads, corners, params.labels, &mut work, &mut components, &mut entries))
        .expect("labels");
}

#[test]
fn a_whole_frame() {
    let full = Full::of(0);
    let mut work = vec![0; frame_work(MOST_HALF_EDGES, MOST_CORNERS)];
    let (mut components, mut entries) = (vec![Component::default(); MOST_QUADS], vec![Entry::default(); 4 * MOST_QUADS]);
    let counts = within(STACK, || label_frame(full.frame(), Params::default(), &mut work, &mut components, &mut entries));
    assert!(counts.is_ok_and(|counts| counts.entries > 3_900));
}
