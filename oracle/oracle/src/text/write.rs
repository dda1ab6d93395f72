// Writes a frame as a text.

use super::read::{MOST_TEXT_CORNERS, MOST_TEXT_TRIANGLES};
use crate::judge::paired;
use frame::{Frame, Params, NONE};

/// Whether a text can say this frame: its size, and lists that pair up.
pub fn fits(frame: &Frame) -> bool {
    let few = frame.corners() <= MOST_TEXT_CORNERS;
    few && frame.half_edges() <= 3 * MOST_TEXT_TRIANGLES && paired(frame)
}

fn word(x: f32) -> String {
    format!("{:08X}", x.to_bits())
}

fn or_minus(word: Option<String>) -> String {
    word.unwrap_or("-".to_string())
}

fn corner(frame: &Frame, c: usize) -> String {
    let axis = |slot: usize| {
        let spread = or_minus(frame.spread(slot).map(word));
        format!("{} {spread}", word(frame.angles[slot]))
    };
    let (x, y) = (word(frame.x[c]), word(frame.y[c]));
    format!("C {x} {y} {} {}\n", axis(2 * c), axis(2 * c + 1))
}

fn triangle(frame: &Frame, t: usize) -> String {
    let twin = |k: usize| {
        let twin = frame.twins[3 * t + k];
        or_minus((twin != NONE).then(|| twin.to_string()))
    };
    let [a, b, c] = [0, 1, 2].map(|k| frame.triangles[3 * t + k]);
    format!("T {a} {b} {c} {} {} {}\n", twin(0), twin(1), twin(2))
}

/// Rule 1 is left out: a text without a rule has it.
fn parameters(params: &Params) -> String {
    let floats = params.floats().map(word).join(" ");
    let Params { least_quads, least_corners, spread_rule, .. } = params;
    let rule = if *spread_rule == 1 { String::new() } else { format!(" {spread_rule}") };
    format!("P {floats} {least_quads} {least_corners}{rule}\n")
}

/// The text of a frame that fits.
pub fn write(frame: &Frame) -> String {
    let mut out = parameters(&frame.params);
    out.extend((0..frame.corners()).map(|c| corner(frame, c)));
    out.extend((0..frame.half_edges() / 3).map(|t| triangle(frame, t)));
    out
}
