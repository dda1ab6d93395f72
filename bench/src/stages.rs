// The stages of a frame by their own calls, one after the other, by the archive or by the ruled Rust: what each tells and leaves.

use crate::archive;
use frame::{Frame, Params};
use oracle::calls::{self, words_wanted};
use oracle::frames::Between;
use oracle::judge::Refusal;
use oracle::told::Told;

/// How many quads a call gives, or its refusal.
type Counted = Result<usize, Refusal>;

/// A call that writes the classes and the fits.
pub type Classify = fn(&Frame, &mut [u32], &mut [f32]) -> Result<(), Refusal>;

/// The calls of one side.
pub struct Calls {
    pub classes: Classify,
    pub quads: fn(&Frame, &[u32], &mut [u32]) -> Counted,
    pub filters: fn(&Frame, &[u32], &mut [u32], &mut [u32]) -> Counted,
}

pub const OURS: Calls =
    Calls { classes: archive::classify_all_edges, quads: archive::merge_triangle_pairs, filters: archive::filter_quads };

pub const RULED: Calls = Calls { classes: calls::classes, quads: calls::quads, filters: calls::filters };

/// What a list that is lent holds before a call.
const REST: u32 = 0x5EED_5EED;

/// The words that a list of quads has beyond its greatest answer.
const MORE: usize = 5;

/// The number of classes and their list; of fits and theirs, by their bits; of quads and theirs.
pub struct Stages {
    pub classes: Told<1, 1>,
    pub fits: Told<1, 1>,
    pub quads: Told<1, 1>,
    /// The number that the first filter keeps, the first two, all three; each with the workspace and the list of kept quads. None where
    /// the call before it refused.
    pub kept: Option<[Told<1, 2>; 3]>,
}

/// The frame with those of its filters that come after the first so many made to keep all.
fn by_the_first(filters: usize, frame: &Frame) -> Frame {
    let own = frame.params;
    let any = Params { ratio: f32::INFINITY, least: 0.0, greatest: f32::INFINITY, ..own };
    let params = [any, Params { ratio: own.ratio, ..any }, own][filters - 1];
    Frame { x: frame.x.clone(), y: frame.y.clone(), params, ..Frame::default() }
}

/// The records at the front of a call's last list.
fn front<const LISTS: usize>(told: &Told<1, LISTS>, words: usize) -> Option<&[u32]> {
    let [count] = told.result.ok()?;
    told.lists.last()?.get(..words * count)
}

impl Calls {
    /// What the classes' call, lent lists of these lengths, leaves of the classes and of the fits.
    fn classes(&self, frame: &Frame, lengths: [usize; 2]) -> [Told<1, 1>; 2] {
        let (mut classes, mut fits) = (vec![REST; lengths[0]], vec![f32::from_bits(REST); lengths[1]]);
        let result = (self.classes)(frame, &mut classes, &mut fits).map(|()| [frame.half_edges()]);
        let fits = fits.into_iter().map(f32::to_bits).collect();
        [classes, fits].map(|list| Told { result, lists: [list] })
    }

    fn quads(&self, frame: &Frame, classes: &[u32]) -> Told<1, 1> {
        let room = 4 * (frame.half_edges() / 6) + MORE;
        Told::by([vec![REST; room]], |[list]| (self.quads)(frame, classes, list).map(|count| [count]))
    }

    fn kept(&self, frame: &Frame, quads: &[u32]) -> Told<1, 2> {
        let words = words_wanted(quads.len() / 4, frame.corners());
        let lent = [vec![REST; words], vec![REST; quads.len() + MORE]];
        Told::by(lent, |[work, kept]| (self.filters)(frame, quads, work, kept).map(|count| [count]))
    }

    /// The stages of a frame. Where the classes are refused, those of the quads are all Spurious.
    pub fn stages(&self, frame: &Frame) -> Stages {
        let [classes, fits] = self.classes(frame, [frame.half_edges(); 2]);
        let spurious = vec![0; frame.half_edges()];
        let quads = self.quads(frame, front(&classes, 1).unwrap_or(&spurious));
        let filtered = |quads| [1, 2, 3].map(|filters| self.kept(&by_the_first(filters, frame), quads));
        let kept = front(&quads, 4).map(filtered);
        Stages { classes, fits, quads, kept }
    }
}

/// What the first so many filters of a run keep.
fn kept_in(run: &Between, filters: u32) -> Vec<u32> {
    let marked = run.quads.chunks_exact(4).zip(&run.marks);
    marked.filter(|(_, &mark)| mark == 0 || mark > filters).flat_map(|(quad, _)| quad.to_vec()).collect()
}

impl Stages {
    /// Whether a run of the whole had these stages.
    pub fn are_those_of(&self, run: &Between) -> bool {
        let same = |(filters, kept)| front(kept, 4) == Some(&kept_in(run, filters)[..]);
        front(&self.classes, 1) == Some(&run.classes[..])
            && front(&self.quads, 4) == Some(&run.quads[..])
            && self.kept.as_ref().is_some_and(|kept| (1..).zip(kept).all(same))
    }
}

#[cfg(test)]
mod tests {
    use super::*;
    use crate::meshes;

    /// Row 1 of both sides, whichever list is short or long; every word of both lists is as it was.
    #[test]
    fn classes_and_fits_of_other_lengths() {
        let frame = meshes::perfect(4);
        let all = frame.half_edges();
        for lengths in [[all, all - 1], [all, all + 1], [all, 0], [all - 1, all], [all + 1, all], [all - 1, all - 1]] {
            let [ours, ruled] = [OURS, RULED].map(|calls| calls.classes(&frame, lengths));
            assert_eq!(ours, ruled);
            let result = Err(Refusal { row: 1, place: 0, beside: 0 });
            assert_eq!(ours, lengths.map(|length| Told { result, lists: [vec![REST; length]] }));
        }
    }
}
