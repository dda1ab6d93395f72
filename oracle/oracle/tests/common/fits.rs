// The fits of the classes' call and the row about them, in parts each of which can be got wrong.

use frame::Frame;
use oracle::calls::classes;
use oracle::judge::Refusal;
use oracle::told::Told;
use oracle::vectors::stages::fits::Fitted;
use oracle::words;

/// What is known of one half-edge.
pub struct Side {
    /// The distances of the matches at its start and at its end, whatever the tolerance.
    pub ends: [Option<f32>; 2],
    /// The distances of both slots at its start and at its end, whether they inform or not.
    pub slots: [[f32; 2]; 2],
    pub tolerance: f32,
    /// What the list of fits holds before the call.
    pub before: f32,
}

impl Side {
    fn of(frame: &Frame, e: usize, before: f32) -> Side {
        let (a, b) = frame.ends(e);
        let (a, b) = (a as usize, b as usize);
        let theta = rules::angle(frame.x[b] - frame.x[a], frame.y[b] - frame.y[a]);
        let at = |c: usize| [2 * c, 2 * c + 1].map(|i| rules::distance(theta, frame.angles[i]));
        let ends = words::matches(frame, &words::axes(frame), e);
        let ends = ends.map(|end| end.map(|(_, distance)| distance));
        Side { ends, slots: [at(a), at(b)], tolerance: frame.params.tolerance, before }
    }

    /// The distances at both ends, where there are.
    pub fn both(&self) -> Option<[f32; 2]> {
        Some([self.ends[0]?, self.ends[1]?])
    }

    /// The distances of a Grid half-edge.
    pub fn grid(&self) -> [f32; 2] {
        self.both().expect("a Grid half-edge has both matches")
    }
}

/// The rules, each of which can be got wrong.
pub struct Fits {
    /// The fit of a Grid half-edge.
    pub grid: fn(&Side) -> f32,
    pub diagonal: fn(&Side) -> f32,
    pub spurious: fn(&Side) -> f32,
    /// The half-edge whose matches count for this one.
    pub side: fn(&Frame, usize) -> usize,
    /// Whether a number of fits pairs with the half-edges.
    pub pairs: fn(usize, usize) -> bool,
    /// Whether the refusal of another list or row comes before that of fits that do not pair.
    pub before: fn(&Refusal) -> bool,
    /// What is told of a number of fits that does not pair.
    pub told: fn(usize) -> [u32; 2],
    /// What a refusal does to the fits.
    pub refused: fn(&Refusal, &mut [f32]),
    /// Whether the classes are written before fits that do not pair are refused.
    pub classes_first: bool,
}

pub fn greater([start, end]: [f32; 2]) -> f32 {
    if start < end {
        end
    } else {
        start
    }
}

pub const RIGHT: Fits = Fits {
    grid: |side| greater(side.grid()),
    diagonal: |_| -1.0,
    spurious: |_| -1.0,
    side: |_, e| e,
    pairs: |fits, half_edges| fits == half_edges,
    before: |other| other.row == 1,
    told: |_| [1, 0],
    refused: |_, _| (),
    classes_first: false,
};

impl Fits {
    fn fit(&self, frame: &Frame, classes: &[u32], e: usize, before: f32) -> f32 {
        let side = Side::of(frame, (self.side)(frame, e), before);
        match classes[e] {
            0 => (self.spurious)(&side),
            1 => (self.grid)(&side),
            _ => (self.diagonal)(&side),
        }
    }

    /// The refusal of a case of which the rows give this one where fits pair.
    fn refusal(&self, fitted: &Fitted, other: Option<Refusal>) -> Option<Refusal> {
        let pairs = (self.pairs)(fitted.fits.len(), fitted.case.frame.half_edges());
        if pairs || other.is_some_and(|other| (self.before)(&other)) {
            return other;
        }
        let [row, place] = (self.told)(fitted.fits.len());
        Some(Refusal::at(row, place))
    }

    pub fn answer(&self, fitted: &Fitted) -> Told<0, 2> {
        let Fitted { case, fits } = fitted;
        let frame = &case.frame;
        Told::by_classes(&case.classes, fits, |list, fits| {
            let mut found = case.classes.clone();
            let other = classes(frame, &mut found, &mut vec![0.0; frame.half_edges()]).err();
            let refusal = self.refusal(fitted, other);
            if refusal.is_none() || self.classes_first {
                list.copy_from_slice(&found);
            }
            if let Some(refusal) = refusal {
                (self.refused)(&refusal, fits);
                return Err(refusal);
            }
            let written = fits.iter_mut().enumerate().take(frame.half_edges());
            written.for_each(|(e, fit)| *fit = self.fit(frame, &found, e, *fit));
            Ok(())
        })
    }
}
