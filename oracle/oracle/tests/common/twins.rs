// The rows of twins, in parts each of which can be got wrong.

use frame::{Frame, NONE};
use oracle::judge::Refusal;

/// Whether a row refuses the twin of a half-edge, which is not "none".
pub type Test = fn(&Frame, usize, u32) -> bool;

pub struct Twins {
    /// Tried in this order at a half-edge, each with its row.
    pub tests: [(u32, Test); 3],
    /// Which of the refusals of all half-edges, in their order, is given.
    pub pick: fn(&mut dyn Iterator<Item = Refusal>) -> Option<Refusal>,
    /// What is told of it.
    pub told: fn(&Frame, Refusal) -> Refusal,
}

fn past_end(frame: &Frame, _: usize, twin: u32) -> bool {
    twin as usize >= frame.half_edges()
}

fn not_back(frame: &Frame, e: usize, twin: u32) -> bool {
    frame.twins.get(twin as usize) != Some(&(e as u32))
}

fn elsewhere(frame: &Frame, e: usize, twin: u32) -> bool {
    let (from, to) = frame.ends(e);
    past_end(frame, e, twin) || frame.ends(twin as usize) != (to, from)
}

pub const TWINS: Twins = Twins {
    tests: [(7, past_end), (11, not_back), (12, elsewhere)],
    pick: |refusals| refusals.next(),
    told: |_, refusal| refusal,
};

impl Twins {
    fn fault(&self, frame: &Frame, e: usize) -> Option<Refusal> {
        let twin = frame.twins[e];
        let mut tests = self.tests.iter().filter(|_| twin != NONE);
        let &(row, _) = tests.find(|(_, test)| test(frame, e, twin))?;
        Some(Refusal { row, place: e as u32, beside: twin })
    }

    pub fn refusal(&self, frame: &Frame) -> Option<Refusal> {
        let mut refusals = (0..frame.half_edges()).filter_map(|e| self.fault(frame, e));
        (self.pick)(&mut refusals).map(|refusal| (self.told)(frame, refusal))
    }
}
