// Whole frames of the archive beside the ruled Rust, every word of the lists that they are lent; on the same frames the calls of the
// stages between; and all of it beside the unchanged Rust, where document 01 owes equality and where it does not. The Rust has spread rule 1,
// and equality is owed by that one; by rule 2 it gets NaN for a missing spread.

use crate::archive;
use crate::stages::{Calls, Stages, OURS, RULED};
use crate::tally::{Beside, Tally};
use oracle::frames::{drawn, expected, Unchanged};
use oracle::judge::{MOST_CORNERS, MOST_HALF_EDGES};
use oracle::places::Places;
use oracle::text;
use oracle::told::Told;
use oracle::vectors::frames::Case;

/// So many frames, then a line that says how far it is.
const PROGRESS: u64 = 10_000;

/// What the filters' three calls on a frame are named.
const FILTERS: [&str; 3] = ["first filter", "first two filters", "all filters"];

/// The comparisons of a run.
#[derive(Default)]
struct Frames {
    frames: Beside<2>,
    classes: Beside<1>,
    fits: Beside<1>,
    quads: Beside<1>,
    kept: [Beside<1>; 3],
    /// The stages beside those of a run of the whole by the ruled Rust.
    run: Tally,
    /// The frame and its stages beside the unchanged Rust's: in scope by the letter, by the narrow reading, out of both; by spread rule 1,
    /// then by 2.
    unchanged: [[Tally; 3]; 2],
    /// Accepted frames with as many corners and half-edges as there may be.
    full: u64,
    /// The places of the components that the ruled Rust has.
    places: Places,
}

/// Names a frame by its number, and shows it where it is small.
fn shown(number: u64, case: &Case) -> String {
    let frame = &case.frame;
    let text = if text::fits(frame) { text::write(frame) } else { "too large for a text\n".to_string() };
    let [work, components, entries] = case.lent().map(|list| list.len());
    format!("frame {number}, lent {work}, {components}, {entries} words:\n{text}")
}

impl Frames {
    fn add(&mut self, number: u64, case: &Case) {
        let frame = &case.frame;
        let (size, name) = (frame.half_edges(), || shown(number, case));
        let ours = Told::by(case.lent(), |[work, components, entries]| archive::label_frame(frame, [work, components, entries]));
        let expected = expected(case);
        self.frames.add(&ours, &expected.told, size, name);
        self.places.add_told(&expected.told);
        let stages = self.add_stages(&OURS, number, case);
        if let Some(run) = &expected.between {
            self.run.add(stages.are_those_of(run), size, name);
        }
        if let Some(unchanged) = &expected.unchanged {
            let same = ours == unchanged.told && stages.are_those_of(&unchanged.between);
            self.add_unchanged(same, unchanged, frame.params.spread_rule, size, name);
        }
        if ours.result.is_ok() && frame.corners() == MOST_CORNERS && size == MOST_HALF_EDGES {
            self.full += 1;
        }
    }

    /// Compares the stages by these calls with the ruled Rust's.
    fn add_stages(&mut self, calls: &Calls, number: u64, case: &Case) -> Stages {
        let (size, name) = (case.frame.half_edges(), || shown(number, case));
        let (ours, theirs) = (calls.stages(&case.frame), RULED.stages(&case.frame));
        self.classes.add(&ours.classes, &theirs.classes, size, name);
        self.fits.add(&ours.fits, &theirs.fits, size, name);
        self.quads.add(&ours.quads, &theirs.quads, size, name);
        if let (Some(ours), Some(theirs)) = (&ours.kept, &theirs.kept) {
            let pairs = ours.iter().zip(theirs);
            self.kept.iter_mut().zip(pairs).for_each(|(kept, (ours, theirs))| kept.add(ours, theirs, size, name));
        }
        ours
    }

    /// The frame was accepted, so that its rule is 1 or 2.
    fn add_unchanged(&mut self, same: bool, unchanged: &Unchanged, rule: u32, size: usize, name: impl Fn() -> String) {
        let scope = unchanged.scope;
        let counted = [scope.letter, scope.narrow, !scope.letter && !scope.narrow];
        let tallies = self.unchanged[rule as usize - 1].iter_mut().zip(counted).filter(|(_, counted)| *counted);
        tallies.for_each(|(tally, _)| tally.add(same, size, &name));
    }

    /// Prints it; says whether none differs of what must not.
    fn print(&self) -> bool {
        let mut same = self.frames.print("frames", &["components", "entries"]);
        println!("  accepted with {MOST_CORNERS} corners and {MOST_HALF_EDGES} half-edges: {}", self.full);
        println!("  {}", self.places);
        same &= self.classes.print("classes", &["classes"]);
        same &= self.fits.print("fits", &["fits"]);
        same &= self.quads.print("quads", &["quads"]);
        self.kept.iter().zip(FILTERS).for_each(|(kept, name)| same &= kept.print(name, &["kept"]));
        same &= self.run.print("these stages beside those of the whole run");
        for (rule, [letter, narrow, outside]) in (1..).zip(&self.unchanged) {
            let name = |scope: &str| format!("beside the unchanged Rust by spread rule {rule}, {scope}");
            same &= letter.print(&name("in scope by the letter"));
            same &= narrow.print(&name("in scope by the narrow reading"));
            outside.print_counts(&name("out of both"));
        }
        same
    }
}

/// Frames of all kinds and sizes up to the limits, some damaged, some with too short lists. Says whether none differs.
pub fn check(count: u64, seed: u64) -> bool {
    let mut frames = Frames::default();
    for number in 0..count {
        frames.add(number, &drawn(seed, number as usize).case);
        if (number + 1) % PROGRESS == 0 {
            eprintln!("{} of {count}", number + 1);
        }
    }
    frames.print()
}

#[cfg(test)]
mod tests {
    use super::*;
    use crate::stages::Classify;
    use frame::Frame;
    use oracle::frames::full_twins;
    use oracle::judge::Refusal;

    /// The refusal of a case, if any, by the whole call and by that of the quads: of the archive and of the oracle the same, and so are
    /// their lists.
    fn refused(case: &Case) -> Option<Refusal> {
        let frame = &case.frame;
        let ours = Told::by(case.lent(), |[work, components, entries]| archive::label_frame(frame, [work, components, entries]));
        assert_eq!(ours.parted(&expected(case).told), None);
        let [quads, theirs] = [OURS, RULED].map(|calls| calls.stages(frame).quads);
        assert_eq!(quads.parted(&theirs), None);
        assert_eq!(quads.result.err(), ours.result.err());
        ours.result.err()
    }

    /// Numbers of spread rules, and some that are none.
    const RULES: [u32; 5] = [1, 2, 0, 3, u32::MAX];

    #[test]
    fn drawn_frames_by_every_rule() {
        let (mut frames, mut parted) = (Frames::default(), 0);
        for number in 0..600 {
            let told = RULES.map(|rule| {
                let mut case = drawn(1, number as usize).case;
                case.frame.params.spread_rule = rule;
                frames.add(number, &case);
                expected(&case).told
            });
            parted += u32::from(told[0] != told[1]);
        }
        assert!(frames.print());
        // three of the numbers are no rule, and rows 1 to 3 come before
        let refused = [frames.frames.refused_by(18), frames.classes.refused_by(18), frames.quads.refused_by(18)];
        assert!(parted > 50 && refused[0] > 1_600 && refused[1] >= refused[0] && refused[2] == 0, "{parted} {refused:?}");
    }

    /// The archive's call with a fault in its fits: 0 for -0, -0 for 0, another number for -1, or the next float for one above 0.
    fn wrong<const FAULT: u32>(frame: &Frame, classes: &mut [u32], fits: &mut [f32]) -> Result<(), Refusal> {
        archive::classify_all_edges(frame, classes, fits)?;
        for fit in fits {
            match FAULT {
                0 if *fit == 0.0 => *fit = 0.0,
                1 if *fit == 0.0 => *fit = -0.0,
                2 if *fit == -1.0 => *fit = -2.0,
                3 if *fit > 0.0 => *fit = f32::from_bits(fit.to_bits() + 1),
                _ => (),
            }
        }
        Ok(())
    }

    /// In the fits, and in nothing else of the stages.
    #[test]
    fn a_wrong_fit_is_told() {
        let faults: [Classify; 4] = [wrong::<0>, wrong::<1>, wrong::<2>, wrong::<3>];
        for classes in faults {
            let (mut frames, calls) = (Frames::default(), Calls { classes, ..OURS });
            for number in 0..200 {
                frames.add_stages(&calls, number, &drawn(1, number as usize).case);
            }
            assert!(frames.classes.print("classes", &["classes"]) && frames.quads.print("quads", &["quads"]));
            assert!(!frames.fits.print("fits", &["fits"]));
            assert!(!frames.print());
        }
    }

    /// The expected answers with a hole more in the first component that has some.
    #[test]
    fn a_wrong_hole_is_told() {
        let mut frames = Frames::default();
        for number in 0..200 {
            let case = drawn(1, number as usize).case;
            let told = expected(&case).told;
            let mut ours = told.clone();
            let components = told.result.map_or(0, |[components, _]| components);
            let holed = (0..components).find(|k| told.lists[1][3 * k + 2] > 0);
            holed.inspect(|k| ours.lists[1][3 * k + 2] += 1);
            frames.frames.add(&ours, &told, 0, String::new);
            frames.places.add_told(&told);
        }
        assert!(!frames.print());
        assert!(frames.places.holed > 0);
    }

    #[test]
    fn wrong_twins_of_a_full_mesh() {
        for (case, refusal) in full_twins() {
            assert_eq!(refused(&case), refusal);
        }
    }
}
