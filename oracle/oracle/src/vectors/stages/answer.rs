// The answer to a case, and its lines in the file of answers.

use super::{Case, Kind};
use crate::calls;
use crate::judge::Refusal;
use crate::told::Told;
use crate::vectors;
use crate::vectors::form::refused;
use frame::AxisPair;

/// The result or the refusal, with the final content of the list that the call may change.
pub enum Answer {
    Axis(Result<AxisPair, Refusal>),
    Classes(Told<0, 1>),
    Quads(Told<1, 1>),
}

impl vectors::Answer for Answer {
    fn refusal(&self) -> Option<Refusal> {
        match self {
            Answer::Axis(result) => result.err(),
            Answer::Classes(told) => told.refusal(),
            Answer::Quads(told) => told.refusal(),
        }
    }

    fn lines(&self) -> String {
        match self {
            Answer::Axis(Ok(pair)) => {
                let [a, b] = pair.angles.map(word);
                let [m, n] = pair.informative.map(u32::from);
                format!("cache {a:08X} {b:08X} {m} {n}\n")
            }
            Answer::Axis(Err(refusal)) => refused(refusal) + "\n",
            Answer::Classes(told) => told.lines(),
            Answer::Quads(told) => told.lines(),
        }
    }
}

/// A float's word, one for all NaNs.
fn word(x: f32) -> u32 {
    if x.is_nan() {
        0x7FC0_0000
    } else {
        x.to_bits()
    }
}

/// What the ruled build gives, or the table of refusals.
pub fn answer(case: &Case) -> Answer {
    match case.kind {
        Kind::Axis => Answer::Axis(calls::axis_cache(&case.frame)),
        Kind::Classes => {
            let mut fits = vec![0.0; case.frame.half_edges()];
            Answer::Classes(Told::by([case.classes.clone()], |[list]| {
                calls::classes(&case.frame, list, &mut fits).map(|()| [])
            }))
        }
        Kind::Quads => {
            let call = |list: &mut [u32]| calls::quads(&case.frame, &case.classes, list);
            Answer::Quads(Told::by([case.quads.clone()], |[list]| call(list).map(|n| [n])))
        }
    }
}
