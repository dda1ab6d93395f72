// Frames of which some spreads are missing and some are not, so that their answers differ by the
// spread rule: by rule 2 one of which all are missing has no quad.

use crate::random::Random;
use frame::Frame;

/// Numbers below the usual limits for a frame's missing spreads, but for `share` of a hundred of
/// them, which stay missing.
pub fn speak(frame: &mut Frame, share: usize, random: &mut Random) {
    for (mark, spread) in frame.marks.iter_mut().zip(&mut frame.spreads) {
        if *mark == 0 && random.below(100) >= share {
            *mark = 1;
            *spread = random.within(0.0, 0.5) as f32;
        }
    }
}

/// Of a hundred missing spreads of a frame by rule 2, how many stay missing.
const SHARES: [usize; 6] = [0, 1, 3, 10, 40, 100];

/// A number that is no rule.
pub fn no_rule(random: &mut Random) -> u32 {
    let any = (random.word() >> 32) as u32;
    let number = random.pick(&[0, 3, u32::MAX, any]);
    number + 3 * matches!(number, 1 | 2) as u32
}

/// Leaves a frame by rule 1, or draws another rule: of a hundred and fifty frames fifty are by rule
/// 2, with some of their spreads missing, and three by a number that is no rule.
pub fn draw_rule(frame: &mut Frame, random: &mut Random) {
    match random.below(150) {
        0..50 => {
            frame.params.spread_rule = 2;
            speak(frame, random.pick(&SHARES), random);
        }
        50..53 => frame.params.spread_rule = no_rule(random),
        _ => (),
    }
}
