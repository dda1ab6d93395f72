// Half-edge tables with sound twins and no geometry behind them.

use super::finish::parameters;
use super::link::link;
use super::tune::tune;
use crate::random::Random;
use frame::Frame;

/// A triangle that shares a random side with one already there, or a wholly random one.
fn next_triangle(list: &[[u32; 3]], corners: u32, random: &mut Random) -> [u32; 3] {
    let mut any = || random.below(corners as usize) as u32;
    let (mut a, mut b, mut c) = (any(), any(), any());
    if let Some(&old) = list.get(random.below(list.len().max(1))) {
        if !random.one_in(8) {
            let k = random.below(3);
            (a, b) = (old[(k + 1) % 3], old[k]);
        }
    }
    while a == b || b == c || c == a {
        if a == b {
            b = random.below(corners as usize) as u32;
        }
        c = random.below(corners as usize) as u32;
    }
    [a, b, c]
}

/// A random table. Few corners make many triangles meet on a side.
pub fn tables(corners: usize, random: &mut Random) -> Frame {
    let corners = random.between(4, corners.clamp(4, 60) as i32) as u32;
    let most = random.between(2, 80) as usize;
    let mut list: Vec<[u32; 3]> = Vec::new();
    while list.len() < most {
        let next = next_triangle(&list, corners, random);
        list.push(next);
    }
    let mut frame = Frame { params: parameters(random), ..Frame::default() };
    let reach = random.pick(&[3, 10, 1_000]);
    for _ in 0..corners {
        let (x, y) = (random.between(-reach, reach) as f32, random.between(-reach, reach) as f32);
        frame.add_corner(x, y, [0.0, 1.5], [None, None]);
    }
    frame.triangles = list.concat();
    frame.twins = link(&list, random.pick(&[0, 0, 10]), random);
    frame.params.tolerance = random.within(0.2, 0.75) as f32;
    frame.params.ratio = random.pick(&[3.0, 1e3, f32::INFINITY]);
    frame.params.least = random.pick(&[0.0, 0.0, 0.2]);
    frame.params.greatest = random.pick(&[3.0, f32::INFINITY, f32::INFINITY]);
    tune(&mut frame, random);
    frame
}
