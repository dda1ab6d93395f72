// Stands in for the original's feature module, which is not among its given files:
// the fields that the axis cache reads, and no more.

#[derive(Clone, Copy, Debug)]
pub struct LocalAxis {
    pub angle_rad: f32,
    pub sigma_rad: Option<f32>,
}

#[derive(Clone, Copy, Debug)]
pub struct OrientedFeature<const N: usize> {
    pub axes: [LocalAxis; N],
}
