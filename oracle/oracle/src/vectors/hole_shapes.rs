// Sheets for document 02's holes, as pictures, each with the holes of its components as one counts
// them by eye: those cut off, open to a side or closed, and those of which places are claimed by
// several corners.

use crate::generate::plans::Plan;

/// The pictures of a sheet's layers, and the holes of each of its components.
pub struct Shape {
    pub name: &'static str,
    pub layers: &'static [&'static [&'static str]],
    pub holes: &'static [u32],
}

impl Shape {
    pub fn plan(&self) -> Plan {
        Plan::of(self.layers)
    }
}

const fn shape(
    name: &'static str,
    layers: &'static [&'static [&'static str]],
    holes: &'static [u32],
) -> Shape {
    Shape { name, layers, holes }
}

/// Sheets whose places are each claimed by one corner. Turned by quarters, U, H, T, the comb and the
/// hook have places that each one of the four questions alone refuses.
#[rustfmt::skip]
const PLAIN: [Shape; 24] = [
    shape("a cell", &[&["oo", "oo"]], &[0]),
    shape("L", &[&["oo....", "oo....", "oo....", "oooooo", "oooooo"]], &[0]),
    shape("a corner cut off", &[&["oooooo..", "oooooo..", "oooooooo", "oooooooo", "oooooooo"]], &[0]),
    shape("a corner cut off in steps", &[&["ooo....", "ooo....", "ooooo..", "ooooo..", "ooooooo", "ooooooo"]], &[0]),
    shape("U", &[&["oo...oo", "oo...oo", "oo...oo", "ooooooo", "ooooooo"]], &[0]),
    shape("O", &[&["ooooo", "ooooo", "oo.oo", "ooooo", "ooooo"]], &[1]),
    shape("a wide O", &[&["ooooooo", "ooooooo", "oo...oo", "oo...oo", "ooooooo", "ooooooo"]], &[6]),
    shape("a hole of two", &[&["oooooo", "oooooo", "oo..oo", "oooooo", "oooooo"]], &[2]),
    shape("two holes", &[&["oooooooo", "oooooooo", "oo.oo.oo", "oooooooo", "oooooooo"]], &[2]),
    shape("two holes aslant", &[&["ooooo...", "ooooo...", "oo.ooooo", "oooooooo", "ooooo.oo", "...ooooo", "...ooooo"]], &[2]),
    shape("open to a side", &[&["ooooo", "ooooo", "oo.oo", "oo.oo"]], &[0]),
    shape("a hook", &[&["ooooooo", "ooooooo", "oo.....", "oo..ooo", "oo..ooo", "ooooooo", "ooooooo"]], &[4]),
    shape("a spiral", &[&["ooooooo", "ooooooo", ".....oo", "oooo.oo", "oooo.oo", "oo...oo", "ooooooo", "ooooooo"]], &[5]),
    shape("a comb", &[&["oooooooo", "oooooooo", "oo.oo.oo", "oo.oo.oo", "oo.oo.oo"]], &[0]),
    shape("a comb with one gap closed", &[&["oooooooo", "oooooooo", "oo.oo.oo", "oo.oo.oo", "ooooo.oo", "ooooo.oo"]], &[2]),
    shape("combs into each other", &[&["oooooooo", "oooooooo", "oo....oo", "oo.oo.oo", "oo.oo.oo", "oo.oo...", "ooooo...", "ooooo..."]], &[6]),
    shape("a ladder", &[&["oooooooo", "oooooooo", "oo.oo.oo", "oo.oo.oo", "oooooooo", "oooooooo"]], &[4]),
    shape("a zigzag", &[&["ooooooo", "ooooooo", ".....oo", "ooooooo", "ooooooo", "oo.....", "ooooooo", "ooooooo"]], &[0]),
    shape("a cross", &[&["..oo..", "..oo..", "oooooo", "oooooo", "..oo..", "..oo.."]], &[0]),
    shape("H", &[&["oo..oo", "oo..oo", "oooooo", "oooooo", "oo..oo", "oo..oo"]], &[0]),
    shape("T", &[&["oooooo", "oooooo", "..oo..", "..oo.."]], &[0]),
    // the place in the middle has diagonal neighbours only
    shape("a hole like a cross", &[&["ooooooo", "ooooooo", "ooo.ooo", "oo...oo", "ooo.ooo", "ooooooo", "ooooooo"]], &[5]),
    shape("stairs", &[&["ooo...", "oooo..", "ooooo.", ".ooooo", "..oooo", "...ooo"]], &[0]),
    shape("an island in a hole", &[&["oooooooo", "oooooooo", "oo....oo", "oo.oo.oo", "oo.oo.oo", "oo....oo", "oooooooo", "oooooooo"]], &[16, 0]),
];

/// Sheets with places that two corners claim: such a place holds no listed corner, and is none to
/// the places beside it. Document 01's example is the slit at the rim.
#[rustfmt::skip]
const CLAIMED: [Shape; 11] = [
    shape("a slit", &[&["ooooo", "oo=oo", "ooooo"]], &[1]),
    shape("a slit of two", &[&["oooooo", "oo==oo", "oooooo"]], &[2]),
    shape("a slit at the rim", &[&["ooo", "oo=", "ooo"]], &[0]),
    shape("slits both ways", &[&["ooooooo", "oo=oooo", "ooooooo", "oooo|oo", "ooooooo"]], &[2]),
    shape("a slit beside a hole", &[&["oooooo", "oooooo", "oo.=oo", "oooooo", "oooooo"]], &[2]),
    shape("a wall claimed twice", &[
        &["ooooo", "ooooo", "oo.oo", "ooooo", "ooooo"],
        &[".....", "...oo", "...22", "...oo", "....."],
    ], &[0]),
    shape("rows without a corner", &[
        &["oo", "oo", "oo", "oo", "oo", "oo"],
        &["..", "oo", "22", "22", "..", ".."],
    ], &[0]),
    shape("a row without a corner below a hole", &[
        &["ooooo", "ooooo", "oo.oo", "ooooo", "ooooo", "oo...", "oo...", "oo..."],
        &[".....", ".....", ".....", ".....", "oo...", "22...", "22...", "....."],
    ], &[1]),
    shape("a row of one corner", &[
        &["oo", "oo", "oo", "oo"],
        &["..", "oo", "o2", ".."],
    ], &[0]),
    shape("the last rows claimed twice", &[
        &["oo", "oo", "oo", "oo"],
        &["..", "oo", "22", "22"],
    ], &[0]),
    shape("the first rows claimed twice", &[
        &["oo", "oo", "oo", "oo"],
        &["22", "22", "oo", ".."],
    ], &[0]),
];

/// All of them.
pub fn shapes() -> impl Iterator<Item = &'static Shape> {
    PLAIN.iter().chain(&CLAIMED)
}

/// The sheet of this name.
pub fn named(name: &str) -> Plan {
    shapes().find(|shape| shape.name == name).expect("a shape").plan()
}

/// Components one behind the other, some with rows and columns that list nothing: what one leaves
/// behind is told by the next, whichever is the larger.
const SERIES: [&[(&str, usize)]; 13] = [
    &[("a wide O", 0), ("rows without a corner", 0), ("rows without a corner", 1)],
    &[("rows without a corner", 1), ("rows without a corner", 0), ("a wide O", 0)],
    &[("a hole like a cross", 0), ("rows without a corner", 0), ("a cell", 0)],
    &[("O", 0), ("L", 0), ("two holes", 0), ("a cell", 0), ("a slit", 0)],
    &[("a cell", 0), ("a wide O", 1), ("U", 0), ("O", 0)],
    &[("U", 0), ("U", 1), ("U", 2), ("U", 3)],
    &[("O", 0), ("U", 2), ("a hole of two", 1)],
    &[("stairs", 0), ("O", 0)],
    &[("O", 0), ("a row of one corner", 0), ("a row of one corner", 1), ("a slit at the rim", 0)],
    &[("a slit", 0), ("a slit at the rim", 0), ("a slit of two", 1), ("a wall claimed twice", 2)],
    &[("a comb with one gap closed", 3), ("a hook", 2), ("L", 1)],
    &[("the first rows claimed twice", 0), ("O", 0), ("the last rows claimed twice", 0)],
    &[("a row without a corner below a hole", 0), ("rows without a corner", 0), ("O", 0)],
];

/// Several components in one list: those in a row, some with their quads taking turns, and some
/// beside a component that lists nothing.
pub fn series() -> Vec<Plan> {
    let plans = |names: &[(&str, usize)]| -> Vec<Plan> {
        names.iter().map(|&(name, quarters)| named(name).turned(quarters)).collect()
    };
    let mut series: Vec<Plan> = SERIES.iter().map(|names| Plan::apart(&plans(names))).collect();
    series.extend([0, 3].map(|place| Plan::apart(&plans(SERIES[place])).interleaved()));
    // a ring gone round twice
    let (ring, none) = (named("O"), Plan::turns(2));
    series.push(none.clone());
    series.push(Plan::apart(&[none.clone(), ring.clone()]));
    series.push(Plan::apart(&[ring, none, named("rows without a corner")]));
    series
}
