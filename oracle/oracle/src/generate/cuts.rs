// Sheets with parts cut out, at the rim and inside: Ls, rings, sheets open to a side, combs, blocks
// left out anywhere, at times with slits; as quad lists and as frames.

use super::finish::{finish, Style};
use super::patterns::Quad;
use super::plans::Plan;
use super::sheet::Sheet;
use super::warp::Warp;
use crate::random::Random;
use frame::Frame;

/// A picture that is cut, letters as a plan has them.
type Picture = Vec<Vec<u8>>;

/// Cuts out the places from one column and row to another, these not included.
fn cut_out(picture: &mut Picture, columns: [usize; 2], rows: [usize; 2]) {
    let lines = picture.iter_mut().take(rows[1]).skip(rows[0]);
    lines.for_each(|line| line[columns[0]..columns[1]].fill(b'.'));
}

/// Two places of so many, the lower first, with something between.
fn between(most: usize, random: &mut Random) -> [usize; 2] {
    let from = random.below(most);
    [from, from + 1 + random.below(most - from)]
}

/// Small blocks left out, half of them anywhere, half where two places are left all round.
fn blocks(picture: &mut Picture, random: &mut Random) {
    let (wide, high) = (picture[0].len(), picture.len());
    for _ in 0..random.between(1, 4) {
        let rim = if random.coin() && wide.min(high) > 4 { 2 } else { 0 };
        let mut small = |size: usize| {
            let [from, to] = between(size - 2 * rim, random);
            [rim + from, rim + to.min(from + 1 + (to - from) / 3)]
        };
        let (columns, rows) = (small(wide), small(high));
        cut_out(picture, columns, rows);
    }
}

/// All but walls of a thickness, open to none to three of the sides.
fn walls(picture: &mut Picture, random: &mut Random) {
    let (wide, high) = (picture[0].len(), picture.len());
    let thick = random.between(2, 3) as usize;
    let open = random.pick(&[0, 0, 0, 1, 2, 3]);
    let ends = |size: usize, low: bool, high: bool| {
        [if low { 0 } else { thick }, if high { size } else { size.saturating_sub(thick) }]
    };
    let columns = ends(wide, open >= 3, open >= 1);
    let rows = ends(high, open >= 2, false);
    if columns[0] < columns[1] && rows[0] < rows[1] {
        cut_out(picture, columns, rows);
    }
}

/// Gaps from one side, some of them closed.
fn gaps(picture: &mut Picture, random: &mut Random) {
    let (wide, high) = (picture[0].len(), picture.len());
    let mut left = 2;
    while left + 2 < wide {
        let gap = random.between(1, 2) as usize;
        let end = if random.one_in(3) { high.saturating_sub(2) } else { high };
        if 2 < end {
            cut_out(picture, [left, (left + gap).min(wide)], [2, end]);
        }
        left += gap + random.between(2, 3) as usize;
    }
}

/// Slits at some places that are left.
fn slits(picture: &mut Picture, random: &mut Random) {
    for _ in 0..random.between(2, 6) {
        let (v, u) = (random.below(picture.len()), random.below(picture[0].len()));
        if picture[v][u] == b'o' {
            picture[v][u] = random.pick(b"=|");
        }
    }
}

fn cut(wide: usize, high: usize, random: &mut Random) -> Plan {
    let mut picture = vec![vec![b'o'; wide]; high];
    match random.below(8) {
        0..3 => blocks(&mut picture, random),
        3..6 => walls(&mut picture, random),
        6 => gaps(&mut picture, random),
        _ => slits(&mut picture, random),
    }
    if random.one_in(4) {
        slits(&mut picture, random);
    }
    let lines: Vec<&str> =
        picture.iter().map(|line| std::str::from_utf8(line).expect("letters")).collect();
    Plan::of(&[&lines]).turned(random.below(4))
}

/// One to three sheets cut out of at most so many corners in all.
fn cuts_of(corners: usize, random: &mut Random) -> Plan {
    let count = random.pick(&[1, 1, 1, 2, 3]);
    let most = ((corners / count) as f64).sqrt() as usize;
    let mut side = || 4 + random.below(most.saturating_sub(3).max(1));
    let sides: Vec<[usize; 2]> = (0..count).map(|_| [side(), side()]).collect();
    let plans: Vec<Plan> = sides.iter().map(|&[wide, high]| cut(wide, high, random)).collect();
    Plan::apart(&plans)
}

/// Walls two corners thick, closed or open to a side, or a comb, of up to 4,096 corners: most places
/// of the rectangle are empty.
pub fn large_cut(random: &mut Random) -> Plan {
    let plan = match random.below(3) {
        0 => {
            let wide = random.between(5, 1_023);
            Plan::ring(wide, 1_028 - wide)
        }
        1 => {
            let wide = random.between(4, 1_000);
            Plan::open_ring(wide, 2_052 - 2 * wide)
        }
        _ => {
            let (teeth, gap) = (random.between(2, 40), random.between(1, 20));
            Plan::comb(teeth, gap, (2_048 + gap) / teeth - 2 - gap)
        }
    };
    plan.turned(random.below(4))
}

/// The quads of some cut sheets.
pub fn cut_quads(random: &mut Random) -> Vec<Quad> {
    cuts_of(random.pick(&[60, 120, 120, 240]), random).quads
}

/// A view of some cut sheets, exact or, one in three, as measured.
pub fn cuts(corners: usize, random: &mut Random) -> Frame {
    let (plan, exact) = (cuts_of(corners, random), !random.one_in(3));
    view(&plan, exact, random)
}

/// An exact view of a large one.
pub fn large_cuts(random: &mut Random) -> Frame {
    let plan = large_cut(random);
    view(&plan, true, random)
}

fn view(plan: &Plan, exact: bool, random: &mut Random) -> Frame {
    let far = plan.spots.iter().flat_map(|&(u, v)| [u.abs(), v.abs()]).max().unwrap_or(0);
    let warp = match exact {
        true => Warp::turned(random.between(4, 40) as f64, random.within(-3.2, 3.2)),
        false => Warp::view(far as usize + 1, random),
    };
    let points = plan.spots.iter().map(|&(u, v)| warp.at(u.into(), v.into()));
    let mut sheet = Sheet { points: points.collect(), triangles: Vec::new() };
    plan.quads.iter().for_each(|&quad| sheet.add_cell(quad, random));
    let style = if exact { Style::exact() } else { Style::usual(random) };
    finish(sheet, &style, random)
}
