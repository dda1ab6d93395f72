// A frame as document 01 lends it: flat lists and the parameters.

/// "No twin", as a list writes it.
pub const NONE: u32 = u32::MAX;

/// All parameters of a whole frame, in the order of the program's P line. The spread rule says
/// what a missing one is: by 1 informative, by 2 not; other numbers are refused.
#[derive(Clone, Copy, Debug, PartialEq)]
pub struct Params {
    pub tolerance: f32,
    pub ratio: f32,
    pub least: f32,
    pub greatest: f32,
    pub spread_limit: f32,
    pub least_quads: u32,
    pub least_corners: u32,
    pub spread_rule: u32,
}

impl Params {
    /// The five floats in the order of refusal 3's places.
    pub fn floats(&self) -> [f32; 5] {
        [self.tolerance, self.ratio, self.least, self.greatest, self.spread_limit]
    }
}

impl Default for Params {
    fn default() -> Self {
        Params {
            tolerance: 0.25,
            ratio: 1.5,
            least: 0.5,
            greatest: 2.0,
            spread_limit: 1.0,
            least_quads: 1,
            least_corners: 4,
            spread_rule: 1,
        }
    }
}

/// The lists of a frame. Angles, spreads and marks have two slots a corner;
/// a mark of 0 says that its spread is missing.
#[derive(Clone, Debug, Default)]
pub struct Frame {
    pub x: Vec<f32>,
    pub y: Vec<f32>,
    pub angles: Vec<f32>,
    pub spreads: Vec<f32>,
    pub marks: Vec<u32>,
    pub triangles: Vec<u32>,
    pub twins: Vec<u32>,
    pub params: Params,
}

impl Frame {
    pub fn corners(&self) -> usize {
        self.x.len()
    }

    pub fn half_edges(&self) -> usize {
        self.triangles.len()
    }

    /// The spread in a slot, or None where it is missing.
    pub fn spread(&self, slot: usize) -> Option<f32> {
        (self.marks[slot] != 0).then_some(self.spreads[slot])
    }

    /// The corners that half-edge e runs between, in its sense.
    pub fn ends(&self, e: usize) -> (u32, u32) {
        let next = if e % 3 == 2 { e - 2 } else { e + 1 };
        (self.triangles[e], self.triangles[next])
    }

    pub fn add_corner(&mut self, x: f32, y: f32, angles: [f32; 2], spreads: [Option<f32>; 2]) {
        self.x.push(x);
        self.y.push(y);
        for slot in 0..2 {
            self.angles.push(angles[slot]);
            self.spreads.push(spreads[slot].unwrap_or(0.0));
            self.marks.push(spreads[slot].is_some() as u32);
        }
    }

    pub fn add_triangle(&mut self, corners: [u32; 3], twins: [u32; 3]) {
        self.triangles.extend(corners);
        self.twins.extend(twins);
    }
}
