// Frames of which chosen spreads are missing and all others are below the limit: they tell the rules
// of spreads apart.

use super::frame_rows::changed;
use frame::Frame;

/// Below the limit that parameters have if nothing else is said.
pub const LOW: f32 = 0.5;

/// Every spread there, by marks of every kind, and below the limit.
pub fn spoken(frame: &Frame) -> Frame {
    changed(frame, |frame| {
        let marks = [1, u32::MAX, 2].into_iter().cycle();
        frame.marks.iter_mut().zip(marks).for_each(|(mark, present)| *mark = present);
        frame.spreads.fill(LOW);
    })
}

/// The same, with the spreads of these slots missing; what is behind their marks stays.
pub fn silent(frame: &Frame, slots: &[usize]) -> Frame {
    changed(&spoken(frame), |frame| slots.iter().for_each(|&slot| frame.marks[slot] = 0))
}

/// The same, with both spreads of these corners missing.
pub fn silent_at(frame: &Frame, corners: &[usize]) -> Frame {
    let slots: Vec<usize> =
        corners.iter().flat_map(|corner| [2 * corner, 2 * corner + 1]).collect();
    silent(frame, &slots)
}
