// The oracle's driver, and a frame in the original's own form, made before a time begins. The stages check nothing, order no entries and
// count no holes.

include!("../../../oracle/original/driver.rs");

/// What the stages read.
pub struct Prepared {
    positions: Vec<Point2<f32>>,
    features: Vec<OrientedFeature<2>>,
    mesh: Triangulation,
    params: Params,
}

/// A class for each half-edge.
pub struct Classes(Vec<EdgeClass>);

#[derive(Clone)]
pub struct Quads(Vec<Quad>);

impl Quads {
    pub fn count(&self) -> usize {
        self.0.len()
    }
}

impl Prepared {
    pub fn of(frame: &Frame) -> Prepared {
        Prepared {
            positions: positions(frame),
            features: features(frame),
            mesh: triangulation(frame),
            params: frame.params,
        }
    }

    /// The axis caches and the classes.
    pub fn classes(&self) -> Classes {
        let caches = build_axis_caches(&self.features, self.params.spread_limit);
        Classes(classify_all_edges(&self.positions, &caches, &self.mesh, self.params.tolerance))
    }

    pub fn quads(&self, classes: &Classes) -> Quads {
        Quads(merge_triangle_pairs(&self.mesh, &classes.0, &self.positions))
    }

    pub fn filter(&self, quads: Quads) -> Quads {
        let Params { ratio, least, greatest, .. } = self.params;
        Quads(filter_quads(quads.0, &self.positions, ratio, least, greatest))
    }

    /// How many components there are, and how many corners they list.
    pub fn label(&self, quads: &Quads) -> [usize; 2] {
        let Params { least_quads, least_corners, .. } = self.params;
        let found = label_components(&quads.0, least_quads as usize, least_corners as usize);
        [found.len(), found.iter().map(|component| component.labelled.len()).sum()]
    }

    /// All stages in a row.
    pub fn run(&self) -> [usize; 2] {
        self.label(&self.filter(self.quads(&self.classes())))
    }
}
