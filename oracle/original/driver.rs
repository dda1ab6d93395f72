// Sits inside the module of the stages, where their inner items can be reached, and runs
// them in the order in which the original strings them together.

use frame::{AxisPair, Component, Entry, Frame, Params, Stages, NONE};
use nalgebra::Point2;

use super::axis::{build_axis_caches, AxisCache};
use super::classify::{classify_all_edges, EdgeClass};
use super::delaunay::Triangulation;
use super::filter::{filter_quads, filter_quads_observed, FilterStage};
use super::quads::{merge_triangle_pairs, Quad};
use super::walk::{label_components, TopologicalComponent};
use crate::feature::{LocalAxis, OrientedFeature};

fn positions(frame: &Frame) -> Vec<Point2<f32>> {
    let points = frame.x.iter().zip(&frame.y);
    points.map(|(&x, &y)| Point2 { x, y }).collect()
}

/// The spread that the original is given. It has rule 1 alone; by rule 2 a missing one is given as
/// NaN, which is not finite and so not informative.
fn sigma(frame: &Frame, slot: usize) -> Option<f32> {
    let missing = (frame.params.spread_rule == 2).then_some(f32::NAN);
    frame.spread(slot).or(missing)
}

fn features(frame: &Frame) -> Vec<OrientedFeature<2>> {
    let axis = |slot: usize| LocalAxis {
        angle_rad: frame.angles[slot],
        sigma_rad: sigma(frame, slot),
    };
    (0..frame.corners())
        .map(|c| OrientedFeature { axes: [axis(2 * c), axis(2 * c + 1)] })
        .collect()
}

fn twin(word: u32) -> usize {
    if word == NONE {
        delaunator::EMPTY
    } else {
        word as usize
    }
}

fn triangulation(frame: &Frame) -> Triangulation {
    Triangulation {
        triangles: frame.triangles.iter().map(|&c| c as usize).collect(),
        halfedges: frame.twins.iter().map(|&w| twin(w)).collect(),
    }
}

fn class_number(class: &EdgeClass) -> u32 {
    match class {
        EdgeClass::Spurious => 0,
        EdgeClass::Grid => 1,
        EdgeClass::Diagonal => 2,
    }
}

fn class_of(number: u32) -> EdgeClass {
    match number {
        0 => EdgeClass::Spurious,
        1 => EdgeClass::Grid,
        2 => EdgeClass::Diagonal,
        _ => panic!("{number} is no class"),
    }
}

fn axis_pair(cache: &AxisCache) -> AxisPair {
    AxisPair {
        angles: cache.angle_rad,
        informative: cache.informative,
    }
}

fn quad_words(quads: &[Quad]) -> Vec<[u32; 4]> {
    quads.iter().map(|q| q.vertices.map(|c| c as u32)).collect()
}

fn component(found: &TopologicalComponent) -> Component {
    let entry = |(at, &corner): (&crate::lattice::Coord, &usize)| Entry {
        u: at.u,
        v: at.v,
        corner: corner as u32,
    };
    Component::of(found.labelled.iter().map(entry).collect())
}

fn own_quads(quads: &[[u32; 4]]) -> Vec<Quad> {
    quads.iter().map(|q| Quad { vertices: q.map(|c| c as usize) }).collect()
}

/// The labelling alone. The original numbers its groups by their lowest quad and drops
/// some in passing, so its own order of components is already document 01's.
pub fn label(quads: &[[u32; 4]], least_quads: u32, least_corners: u32) -> Vec<Component> {
    let found = label_components(&own_quads(quads), least_quads as usize, least_corners as usize);
    found.iter().map(component).collect()
}

/// The filters alone: what each of the three keeps.
pub fn filter(quads: &[[u32; 4]], frame: &Frame) -> [Vec<[u32; 4]>; 3] {
    let params = &frame.params;
    let mut kept: [Vec<[u32; 4]>; 3] = Default::default();
    let mut observer = |stage: FilterStage, quads: &[Quad]| {
        let place = match stage {
            FilterStage::Topology => 0,
            FilterStage::Geometry => 1,
            FilterStage::CellScale => 2,
        };
        kept[place] = quad_words(quads);
    };
    filter_quads_observed(
        own_quads(quads),
        &positions(frame),
        params.ratio,
        params.least,
        params.greatest,
        Some(&mut observer),
    );
    kept
}

/// The filters with all that they read already in the original's own form, to be timed alone.
#[derive(Clone)]
pub struct Filtering {
    quads: Vec<Quad>,
    positions: Vec<Point2<f32>>,
    params: Params,
}

impl Filtering {
    pub fn of(quads: &[[u32; 4]], frame: &Frame) -> Filtering {
        Filtering { quads: own_quads(quads), positions: positions(frame), params: frame.params }
    }

    /// How many quads are kept.
    pub fn run(self) -> usize {
        let Params { ratio, least, greatest, .. } = self.params;
        filter_quads(self.quads, &self.positions, ratio, least, greatest).len()
    }
}

/// The labelling with its quads already in the original's own form, to be timed alone.
pub struct Labelling {
    quads: Vec<Quad>,
    least: [usize; 2],
}

impl Labelling {
    pub fn of(quads: &[[u32; 4]], least_quads: u32, least_corners: u32) -> Labelling {
        Labelling {
            quads: own_quads(quads),
            least: [least_quads as usize, least_corners as usize],
        }
    }

    /// How many components there are, and how many corners they list.
    pub fn run(&self) -> [usize; 2] {
        let found = label_components(&self.quads, self.least[0], self.least[1]);
        [found.len(), found.iter().map(|component| component.labelled.len()).sum()]
    }
}

pub(super) fn caches(frame: &Frame) -> Vec<AxisCache> {
    build_axis_caches(&features(frame), frame.params.spread_limit)
}

/// The axis caches alone, one a corner.
pub fn axes(frame: &Frame) -> Vec<AxisPair> {
    caches(frame).iter().map(axis_pair).collect()
}

/// The classes alone, of an accepted frame. Its twins are not read.
pub fn classes(frame: &Frame) -> Vec<u32> {
    let mesh = triangulation(frame);
    let tolerance = frame.params.tolerance;
    let found = classify_all_edges(&positions(frame), &caches(frame), &mesh, tolerance);
    found.iter().map(class_number).collect()
}

/// The quads alone, for any class list that pairs with the half-edges and holds classes.
/// The axes of the frame are not read.
pub fn quads(frame: &Frame, classes: &[u32]) -> Vec<[u32; 4]> {
    let classes: Vec<EdgeClass> = classes.iter().map(|&number| class_of(number)).collect();
    quad_words(&merge_triangle_pairs(&triangulation(frame), &classes, &positions(frame)))
}

/// Runs all stages on a frame that the judge accepts.
pub fn run(frame: &Frame) -> Stages {
    let classes = classes(frame);
    let quads = quads(frame, &classes);
    let [topology, geometry, scale] = filter(&quads, frame);
    let components = label(&scale, frame.params.least_quads, frame.params.least_corners);
    Stages { axes: axes(frame), classes, quads, topology, geometry, scale, components }
}
