// Frames damaged by hand, one row at a time, each with the nearest that the row lets pass: for
// every call that reads a frame. Each goes to `add` as the sound frame and the changed one.

use super::form::resize;
use super::meshes::{crowd, square, strip};
use super::{GREATEST_POSITIONS, REFUSED_POSITIONS};
use frame::{Frame, NONE};

/// Each list of a frame made longer or shorter.
pub const LISTS: [fn(&mut Frame, i32); 7] = [
    |frame, by| resize(&mut frame.x, by, 0.0),
    |frame, by| resize(&mut frame.y, by, 0.0),
    |frame, by| resize(&mut frame.angles, by, 0.0),
    |frame, by| resize(&mut frame.marks, by, 0),
    |frame, by| resize(&mut frame.spreads, by, 0.0),
    |frame, by| resize(&mut frame.triangles, by, 0),
    |frame, by| resize(&mut frame.twins, by, NONE),
];

/// The same frame, with something changed.
pub fn changed(frame: &Frame, change: impl FnOnce(&mut Frame)) -> Frame {
    let mut frame = frame.clone();
    change(&mut frame);
    frame
}

/// Row 2 by corners; some triangles name the last that may be.
pub fn corner_counts(add: &mut dyn FnMut(&Frame, Frame)) {
    for corners in [4_095, 4_096, 4_097] {
        let crowded = changed(&square(), |frame| crowd(frame, corners));
        add(&square(), crowded.clone());
        let far = changed(&crowded, |frame| {
            let names = frame.triangles.iter_mut();
            names.filter(|name| **name == 2).for_each(|name| *name = 4_095);
        });
        add(&square(), far);
    }
}

/// Row 4: at the range's ends and past them, and at two corners at once.
pub fn positions(add: &mut dyn FnMut(&Frame, Frame)) {
    let sound = strip(2);
    let mut change = |change: &dyn Fn(&mut Frame)| add(&sound, changed(&sound, change));
    let inside = GREATEST_POSITIONS.into_iter().chain([0x497F_FFFF]);
    for (i, bits) in inside.chain(REFUSED_POSITIONS).enumerate() {
        let value = f32::from_bits(bits);
        change(&|frame| frame.x[i % 6] = value);
        change(&|frame| frame.y[(i + 2) % 6] = value);
    }
    for (c, d) in [(5, 2), (2, 5), (4, 4), (0, 1), (5, 5)] {
        change(&|frame| {
            frame.x[c] = f32::NAN;
            frame.y[d] = f32::INFINITY;
        });
    }
    change(&|frame| frame.x.fill(1_048_576.0));
    change(&|frame| frame.y.fill(f32::NEG_INFINITY));
    let far = changed(&square(), |frame| {
        crowd(frame, 4_096);
        frame.y[5..].fill(1_048_577.0);
    });
    add(&square(), far);
}

/// Row 5: the last corner, the one after it, and the greatest word, at some places.
pub fn names(add: &mut dyn FnMut(&Frame, Frame)) {
    let sound = strip(2);
    let mut change = |change: &dyn Fn(&mut Frame)| add(&sound, changed(&sound, change));
    for place in [0, 1, 5, 11] {
        for name in [5, 6, u32::MAX] {
            change(&|frame| frame.triangles[place] = name);
        }
    }
    change(&|frame| {
        frame.triangles[7] = 6;
        frame.triangles[3] = 1 << 31;
    });
}

/// Row 6: every two places of a triangle, and several triangles at once.
pub fn repeated(add: &mut dyn FnMut(&Frame, Frame)) {
    let sound = strip(2);
    let mut change = |change: &dyn Fn(&mut Frame)| add(&sound, changed(&sound, change));
    for t in [0, 3] {
        for (from, to) in [(0, 1), (1, 2), (0, 2), (1, 0), (2, 1), (2, 0)] {
            change(&|frame| frame.triangles[3 * t + to] = frame.triangles[3 * t + from]);
        }
    }
    change(&|frame| frame.triangles[3..6].fill(2));
    change(&|frame| frame.triangles.fill(5));
    change(&|frame| {
        frame.triangles[9] = frame.triangles[11];
        frame.triangles[5] = frame.triangles[4];
    });
}
