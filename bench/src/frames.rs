// Time of the whole frame's call, and of each stage's, beside the unchanged Rust's, over the same frames in the same run; the best of
// several rounds. The Rust gets its lists in its own form, made before its time begins; it checks nothing, hands back no distances,
// orders no entries and counts no holes. Of ours, the lent lists are as the call before left them.

use crate::{archive, meshes, timing};
use frame::Frame;
use oracle::calls::{words_wanted, Given};
use oracle::vectors::frames::{planned, Case};
use prepared::{Prepared, Quads};

/// A whole frame. One that is refused has no components; the Rust refuses none.
fn whole(name: &str, case: &Case) {
    let (frame, rust) = (&case.frame, Prepared::of(&case.frame));
    let [mut work, mut components, mut entries] = case.lent();
    let mut ours = || archive::label_frame(frame, [&mut work, &mut components, &mut entries]);
    let (told, quads) = (ours(), rust.quads(&rust.classes()).count());
    assert!(told.is_err() || told == Ok(rust.run()), "{name}: {told:?}");
    let name = told.map_or_else(|refusal| format!("{name}: refused by row {}", refusal.row), |_| name.to_string());
    let [components, entries] = told.unwrap_or_default();
    let times = (timing::best(|| (), |()| ours()), timing::best(|| (), |()| rust.run()));
    timing::row_by_corner(&name, frame.corners(), &[quads, components, entries], times.0, times.1);
}

/// A frame that is timed by its stages.
struct Staged<'a> {
    name: &'a str,
    frame: &'a Frame,
    rust: Prepared,
}

impl Staged<'_> {
    fn row(&self, stage: &str, count: usize, ours: f64, theirs: f64) {
        timing::row_by_corner(&format!("{}: {stage}", self.name), self.frame.corners(), &[count], ours, theirs);
    }

    /// Gives the classes; the axis caches are part of the call.
    fn classes(&self) -> Vec<u32> {
        let half_edges = self.frame.half_edges();
        let (mut classes, mut fits) = (vec![0; half_edges], vec![0.0; half_edges]);
        let ours = timing::best(|| (), |()| archive::classify_all_edges(self.frame, &mut classes, &mut fits));
        self.row("classes", classes.len(), ours, timing::best(|| (), |()| self.rust.classes()));
        classes
    }

    /// Gives the quads, also in the Rust's form.
    fn quads(&self, classes: &[u32]) -> (Vec<u32>, Quads) {
        let (own, mut quads) = (self.rust.classes(), vec![0; 4 * (self.frame.half_edges() / 6)]);
        let mut call = || archive::merge_triangle_pairs(self.frame, classes, &mut quads).expect("a sound frame");
        let (count, theirs) = (call(), self.rust.quads(&own));
        assert_eq!(count, theirs.count());
        let ours = timing::best(|| (), |()| call());
        self.row("quads", count, ours, timing::best(|| (), |()| self.rust.quads(&own)));
        quads.truncate(4 * count);
        (quads, theirs)
    }

    /// Gives the quads that are kept, also in the Rust's form.
    fn kept(&self, quads: &[u32], own: &Quads) -> (Vec<u32>, Quads) {
        let mut work = vec![0; words_wanted(quads.len() / 4, self.frame.corners())];
        let mut kept = vec![0; quads.len()];
        let mut call = || archive::filter_quads(self.frame, quads, &mut work, &mut kept).expect("a sound list");
        let (count, theirs) = (call(), self.rust.filter(own.clone()));
        assert_eq!(count, theirs.count());
        let ours = timing::best(|| (), |()| call());
        self.row("filters", count, ours, timing::best(|| own.clone(), |own| self.rust.filter(own)));
        kept.truncate(4 * count);
        (kept, theirs)
    }

    fn labels(&self, kept: &[u32], own: &Quads) {
        let (corners, params) = (self.frame.corners(), &self.frame.params);
        let (least_quads, least_corners) = (params.least_quads, params.least_corners);
        let given = Given { quads: kept, corners: corners as u32, least_quads, least_corners };
        let mut work = vec![0; words_wanted(kept.len() / 4, corners)];
        let (mut components, mut entries) = (vec![0; 3 * (kept.len() / 4)], vec![0; 3 * kept.len()]);
        let mut call = || archive::label_components(&given, &mut work, &mut components, &mut entries).expect("a sound list");
        let counts = call();
        assert_eq!(counts, self.rust.label(own));
        let ours = timing::best(|| (), |()| call());
        self.row("labelling", counts[1], ours, timing::best(|| (), |()| self.rust.label(own)));
    }

    fn run(&self) {
        let (quads, own) = self.quads(&self.classes());
        let (kept, own) = self.kept(&quads, &own);
        self.labels(&kept, &own);
    }
}

/// Grids of as many corners as these numbers' squares.
const SIDES: [u32; 3] = [16, 32, 64];

fn grids() -> Vec<(String, Frame)> {
    let named = |wide: u32| {
        let name = |kind: &str| format!("grid of {wide} by {wide} corners, {kind}");
        [(name("perfect"), meshes::perfect(wide)), (name("noisy"), meshes::noisy(wide))]
    };
    SIDES.into_iter().flat_map(named).collect()
}

fn worst() -> Vec<(&'static str, Case)> {
    let noisy = || meshes::noisy(64);
    let mut short = Case::of(noisy());
    short.entries.truncate(3 * 4_095);
    let shuffled = |frame: Frame| Case::of(meshes::shuffled(&frame));
    let mut worst = vec![
        ("grid of 64 by 64, noisy, triangles shuffled", shuffled(noisy())),
        ("closed grid of 64 by 64, 24,576 half-edges", Case::of(meshes::closed())),
        ("all on one side", Case::of(meshes::one_side())),
        ("four on each of 409 sides", Case::of(meshes::four_on_a_side())),
        ("snake", Case::of(meshes::snake())),
        ("snake, triangles shuffled", shuffled(meshes::snake())),
        ("all apart", Case::of(meshes::apart())),
        ("no side fits an axis", Case::of(meshes::unfit(meshes::perfect(64)))),
        ("noisy, last twin wrong", Case::of(meshes::last_twin_wrong(noisy()))),
        ("noisy, room for 4,095 entries", short),
        ("empty", Case::of(Frame::default())),
    ];
    worst.extend(meshes::hollow().map(|(name, plan)| (name, Case::of(planned(&plan)))));
    worst
}

pub fn run() {
    let grids = grids();
    timing::head_by_corner(&["quads", "components", "entries"]);
    grids.iter().for_each(|(name, frame)| whole(name, &Case::of(frame.clone())));
    worst().iter().for_each(|(name, case)| whole(name, case));
    println!();
    timing::head_by_corner(&["classes, quads, kept or entries"]);
    grids.iter().for_each(|(name, frame)| Staged { name, frame, rust: Prepared::of(frame) }.run());
    println!("The Rust is the unchanged one, with atan2; its lists are in its own form before its time begins.");
    timing::say_what_is_lent();
}

#[cfg(test)]
mod tests {
    use super::*;

    /// No axis of the grid has a spread: by rule 2 the Rust finds nothing in it.
    #[test]
    fn the_rust_by_either_rule() {
        let mut frame = meshes::perfect(4);
        assert_eq!(Prepared::of(&frame).run(), [1, 16]);
        frame.params.spread_rule = 2;
        assert_eq!(Prepared::of(&frame).run(), [0, 0]);
    }
}
