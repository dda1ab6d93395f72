// The strict reader. All lines are read before anything is judged; the first line that
// cannot be read, is out of place or goes over a limit makes the whole text bad.

use super::field::{float, or_minus, whole};
use frame::{Frame, Params, NONE};

pub const MOST_TEXT_CORNERS: usize = 128;
pub const MOST_TEXT_TRIANGLES: usize = 256;

/// The fields after the letter, one blank between.
fn all_fields(line: &[u8], letter: u8) -> Option<Vec<&[u8]>> {
    let mut parts = line.split(|&b| b == b' ');
    (parts.next()? == [letter]).then(|| parts.collect())
}

/// The fields after the letter, exactly N of them.
fn fields<const N: usize>(line: &[u8], letter: u8) -> Option<[&[u8]; N]> {
    all_fields(line, letter)?.try_into().ok()
}

/// The spread rule, where the P line has it, is an eighth field of any decimal.
fn parameters(line: &[u8]) -> Option<Params> {
    let all = all_fields(line, b'P')?;
    let (f, rule) = all.split_first_chunk::<7>()?;
    let spread_rule = match rule {
        [] => 1,
        [rule] => whole(rule)?,
        _ => return None,
    };
    Some(Params {
        tolerance: float(f[0])?,
        ratio: float(f[1])?,
        least: float(f[2])?,
        greatest: float(f[3])?,
        spread_limit: float(f[4])?,
        least_quads: whole(f[5])?,
        least_corners: whole(f[6])?,
        spread_rule,
    })
}

fn corner(line: &[u8], frame: &mut Frame) -> Option<()> {
    let f: [&[u8]; 6] = fields(line, b'C')?;
    let angles = [float(f[2])?, float(f[4])?];
    let spreads = [or_minus(f[3], float)?, or_minus(f[5], float)?];
    if frame.corners() == MOST_TEXT_CORNERS {
        return None;
    }
    frame.add_corner(float(f[0])?, float(f[1])?, angles, spreads);
    Some(())
}

fn triangle(line: &[u8], frame: &mut Frame) -> Option<()> {
    let f: [&[u8]; 6] = fields(line, b'T')?;
    let twin = |field| Some(or_minus(field, whole)?.unwrap_or(NONE));
    let corners = [whole(f[0])?, whole(f[1])?, whole(f[2])?];
    let twins = [twin(f[3])?, twin(f[4])?, twin(f[5])?];
    if frame.half_edges() == 3 * MOST_TEXT_TRIANGLES {
        return None;
    }
    frame.add_triangle(corners, twins);
    Some(())
}

/// Takes the next line; None where it is bad. C lines may not follow a T line.
fn take(line: &[u8], first: bool, frame: &mut Frame) -> Option<()> {
    match line.first()? {
        b'P' if first => {
            frame.params = parameters(line)?;
            Some(())
        }
        b'C' if !first && frame.triangles.is_empty() => corner(line, frame),
        b'T' if !first => triangle(line, frame),
        _ => None,
    }
}

/// The frame of a text, or the number of its first bad line, counted from 1.
pub fn read(text: &[u8]) -> Result<Frame, usize> {
    let mut frame = Frame::default();
    let mut rest = text;
    let mut number: usize = 1;
    while number == 1 || !rest.is_empty() {
        let end = rest.iter().position(|&b| b == b'\n').ok_or(number)?;
        take(&rest[..end], number == 1, &mut frame).ok_or(number)?;
        rest = &rest[end + 1..];
        number += 1;
    }
    Ok(frame)
}
