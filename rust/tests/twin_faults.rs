// The three faults of a twin, through both calls that read twins: which of them is told, at which half-edge, with which twin, and that every
// list stays as it was. First on a square, then on a mesh of as many half-edges as there may be.

mod full;

use full::Full;
use ngeunsadok::*;

const UP: f32 = std::f32::consts::FRAC_PI_2;
const NO: u32 = NO_TWIN;

/// A square of four corners in two triangles. Half-edges 0, 1, 2 run from corner 0 to 1, from 1 to 2 and from 2 to 0; half-edges 3, 4, 5 from
/// 0 to 2, from 2 to 3 and from 3 to 0. So 2 and 3 are twins, and the others have none.
const SQUARE: Frame = Frame {
    corners: Positions { x: &[0.0, 10.0, 10.0, 0.0], y: &[0.0, 0.0, 10.0, 10.0] },
    axes: Axes { angles: &[0.0, UP, 0.0, UP, 0.0, UP, 0.0, UP], marks: &[0; 8], spreads: &[0.0; 8] },
    triangles: &[0, 1, 2, 0, 2, 3],
    twins: &[NO, NO, 3, 2, NO, NO],
};

/// What stands in a list before a call.
const REST: u32 = 77;
const NO_COMPONENT: Component = Component { before: REST, entries: REST, holes: REST };
const NO_ENTRY: Entry = Entry { u: REST, v: REST, corner: REST };

fn past_end(half_edge: u32, twin: u32) -> Option<Refusal> {
    Some(Refusal::TwinPastEnd { half_edge, twin })
}

fn not_back(half_edge: u32, twin: u32) -> Option<Refusal> {
    Some(Refusal::TwinNotBack { half_edge, twin })
}

fn elsewhere(half_edge: u32, twin: u32) -> Option<Refusal> {
    Some(Refusal::TwinElsewhere { half_edge, twin })
}

fn merging(frame: Frame) -> Option<Refusal> {
    let half_edges = frame.triangles.len();
    let (classes, mut quads) = (vec![0; half_edges], vec![[REST; 4]; half_edges / 6]);
    let mesh = Mesh { triangles: frame.triangles, twins: frame.twins, classes: &classes };
    let refusal = merge_triangle_pairs(frame.corners, mesh, &mut quads).err()?;
    assert!(quads.iter().all(|quad| *quad == [REST; 4]));
    Some(refusal)
}

fn labelling(frame: Frame) -> Option<Refusal> {
    let half_edges = frame.triangles.len();
    let mut work = vec![REST; frame_work(half_edges, frame.corners.x.len())];
    let (mut components, mut entries) = (vec![NO_COMPONENT; half_edges / 6], vec![NO_ENTRY; 4 * (half_edges / 6)]);
    let refusal = label_frame(frame, Params::default(), &mut work, &mut components, &mut entries).err()?;
    assert!(work.iter().all(|&word| word == REST));
    assert!(components.iter().all(|component| *component == NO_COMPONENT) && entries.iter().all(|entry| *entry == NO_ENTRY));
    Some(refusal)
}

/// What both calls say of a frame with these twins.
fn refused(frame: Frame, twins: &[u32]) -> Option<Refusal> {
    let frame = Frame { twins, ..frame };
    let refusal = merging(frame);
    assert_eq!(refusal, labelling(frame));
    refusal
}

fn square(twins: [u32; 6]) -> Option<Refusal> {
    refused(SQUARE, &twins)
}

#[test]
fn each_alone() {
    assert_eq!(square([NO, NO, 3, 2, NO, NO]), None);
    assert_eq!(square([NO; 6]), None);
    assert_eq!(square([NO, NO, 3, 2, NO, 6]), past_end(5, 6));
    assert_eq!(square([NO, NO, 3, NO, NO, NO]), not_back(2, 3));
    assert_eq!(square([NO, NO, NO, 2, NO, NO]), not_back(3, 2));
    assert_eq!(square([NO, NO, 4, NO, 2, NO]), elsewhere(2, 4));
    // both run from 0 to 1
    let alike = Frame { triangles: &[0, 1, 2, 0, 1, 3], ..SQUARE };
    assert_eq!(refused(alike, &[3, NO, NO, 0, NO, NO]), elsewhere(0, 3));
}

/// 4 has no twin, and runs between other corners than 0 does: that it does not point back comes first.
#[test]
fn two_of_one_half_edge() {
    assert_eq!(square([4, NO, 3, 2, NO, NO]), not_back(0, 4));
    assert_eq!(square([NO, NO, 3, 2, NO, 2]), not_back(5, 2));
}

/// The lower half-edge is told, whatever the faults of the two: past the end, the half-edge 5 that has no twin, the half-edge itself.
#[test]
fn neighbouring_half_edges() {
    for (twin, refusal) in [(6, past_end(0, 6)), (5, not_back(0, 5)), (0, elsewhere(0, 0))] {
        for next in [6, 5, 1] {
            assert_eq!(square([twin, next, 3, 2, NO, NO]), refusal, "{twin} {next}");
        }
    }
}

#[test]
fn a_half_edge_as_its_own_twin() {
    for e in [0, 1, 4, 5] {
        let mut twins = [NO, NO, 3, 2, NO, NO];
        twins[e] = e as u32;
        assert_eq!(square(twins), elsewhere(e as u32, e as u32));
    }
    assert_eq!(square([NO, NO, 2, 2, NO, NO]), elsewhere(2, 2));
    // 2 names 3, which names itself
    assert_eq!(square([NO, NO, 3, 3, NO, NO]), not_back(2, 3));
}

#[test]
fn half_edge_0_as_the_twin() {
    assert_eq!(square([NO, NO, 3, 2, NO, 0]), not_back(5, 0));
    assert_eq!(square([0, NO, 3, 2, NO, NO]), elsewhere(0, 0));
    assert_eq!(square([0; 6]), elsewhere(0, 0));
}

/// The full mesh with some of its twins changed.
fn changed(full: &Full, changes: &[(usize, u32)]) -> Option<Refusal> {
    let mut twins = full.twins.clone();
    changes.iter().for_each(|&(e, twin)| twins[e] = twin);
    refused(full.frame(), &twins)
}

/// Half-edge 0, from corner 0 to 1, has the twin 24,196 in the last row's first square. What is wrong with 0 is told before that half-edge,
/// which still names it.
#[test]
fn the_first_half_edge_of_a_full_mesh() {
    let full = Full::of(0);
    assert_eq!((full.twins.len(), full.twins[0]), (24_576, 24_196));
    assert_eq!(changed(&full, &[]), None);
    assert_eq!(changed(&full, &[(0, 24_575)]), not_back(0, 24_575));
    assert_eq!(changed(&full, &[(0, 24_576)]), past_end(0, 24_576));
    assert_eq!(changed(&full, &[(0, 4_294_967_294)]), past_end(0, 4_294_967_294));
    assert_eq!(changed(&full, &[(0, 4_294_967_295)]), not_back(24_196, 0));
    assert_eq!(changed(&full, &[(0, 4_294_967_295), (24_196, NO)]), None);
}

/// Half-edge 24,575, from corner 63 to 4,095, has the twin 24,565, which is told first unless it has none.
#[test]
fn the_last_half_edge_of_a_full_mesh() {
    let full = Full::of(0);
    assert_eq!((full.triangles[24_575], full.triangles[24_573], full.twins[24_575]), (63, 4_095, 24_565));
    for twin in [0, 24_575, 24_576, 4_294_967_294, 4_294_967_295] {
        assert_eq!(changed(&full, &[(24_575, twin)]), not_back(24_565, 24_575));
    }
    let alone = |twin| changed(&full, &[(24_565, NO), (24_575, twin)]);
    assert_eq!(alone(0), not_back(24_575, 0));
    assert_eq!(alone(24_574), not_back(24_575, 24_574));
    assert_eq!(alone(24_575), elsewhere(24_575, 24_575));
    assert_eq!(alone(24_576), past_end(24_575, 24_576));
    assert_eq!(alone(4_294_967_294), past_end(24_575, 4_294_967_294));
    assert_eq!(alone(4_294_967_295), None);
}

/// The first and the last half-edge point at each other and run between other corners.
#[test]
fn the_ends_of_a_full_mesh_as_twins() {
    let ends = [(0, 24_575), (24_575, 0), (24_196, NO), (24_565, NO)];
    assert_eq!(changed(&Full::of(0), &ends), elsewhere(0, 24_575));
}
