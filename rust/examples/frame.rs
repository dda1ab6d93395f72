// Labels a frame: sixteen corners of a plate of 3 by 3 squares, tilted, with their axes and a triangulation. Prints where each corner stands
// on the plate's lattice, then what is left by the other spread rule, then two calls that are refused, in words.
// `cargo run --release --example frame`; tools/try-all holds what it prints against frame.expected.

use ngeunsadok::{frame_work, label_frame, twins_of, Axes, Component, EdgeParams, Entry};
use ngeunsadok::{Frame, Labels, Params, Positions, Refusal, SpreadRule};

const SIDE: u32 = 4;

/// What a corner finder gives: a position, and for each of two axes its angle in radians and, where it has one, its spread.
struct Corner {
    x: f32,
    y: f32,
    axes: [(f32, Option<f32>); 2],
}

fn found() -> Vec<Corner> {
    let corner = |k: u32| {
        let (row, column) = ((k / SIDE) as f32, (k % SIDE) as f32);
        let (x, y) = (100.0 + 20.0 * column - 3.0 * row, 50.0 + 3.0 * column + 20.0 * row);
        Corner { x, y, axes: [(0.149, Some(0.05)), (1.72, None)] }
    };
    (0..SIDE * SIDE).map(corner).collect()
}

/// Two triangles for each square, both in the same sense round it.
fn triangulated() -> Vec<u32> {
    let square = |k: u32| {
        let a = SIDE * (k / (SIDE - 1)) + k % (SIDE - 1);
        let (b, c, d) = (a + 1, a + 1 + SIDE, a + SIDE);
        [a, b, c, a, c, d]
    };
    (0..(SIDE - 1) * (SIDE - 1)).flat_map(square).collect()
}

fn print(answer: Result<Labels, Refusal>) {
    let labels = match answer {
        Ok(labels) => labels,
        Err(refusal) => return println!("refused {}, place {}: {refusal}", refusal.number(), refusal.place()),
    };
    if labels.components.is_empty() {
        println!("no component");
    }
    for (k, component) in labels.components.iter().enumerate() {
        println!("component {k}: corners {}, holes {}", component.entries, component.holes);
        for entry in labels.entries_of(component) {
            println!("u {} v {} corner {}", entry.u, entry.v, entry.corner);
        }
    }
}

/// The same call with lists that are lent, the entry list with room for 15.
fn short_of_room(frame: Frame) -> Result<Labels, Refusal> {
    let mut work = vec![0; frame_work(frame.triangles.len(), frame.corners.x.len())];
    let (mut components, mut entries) = (vec![Component::default(); 1], vec![Entry::default(); 15]);
    label_frame(frame, Params::default(), &mut work, &mut components, &mut entries)?;
    Ok(Labels { components, entries })
}

/// Where a missing spread says that the finder gave up: the axis along a column does not count.
fn strict() -> Params {
    Params { edges: EdgeParams { rule: SpreadRule::MissingUninformative, ..EdgeParams::default() }, ..Params::default() }
}

fn main() {
    assert!(ngeunsadok::float_settings_hold(), "this program does not round to nearest with subnormals kept");
    let corners = found();
    let x: Vec<f32> = corners.iter().map(|corner| corner.x).collect();
    let y: Vec<f32> = corners.iter().map(|corner| corner.y).collect();
    let axes: Vec<(f32, Option<f32>)> = corners.iter().flat_map(|corner| corner.axes).collect();
    let angles: Vec<f32> = axes.iter().map(|axis| axis.0).collect();
    let marks: Vec<u32> = axes.iter().map(|axis| axis.1.is_some().into()).collect();
    let spreads: Vec<f32> = axes.iter().map(|axis| axis.1.unwrap_or(0.0)).collect();
    let triangles = triangulated();
    let mut twins = twins_of(&triangles);

    let corners = Positions { x: &x, y: &y };
    let axes = Axes { angles: &angles, marks: &marks, spreads: &spreads };
    let frame = Frame { corners, axes, triangles: &triangles, twins: &twins };
    print(frame.label(Params::default()));
    print(frame.label(strict()));
    print(short_of_room(frame));

    // a twin that does not point back
    twins[2] = 4;
    print(Frame { corners, axes, triangles: &triangles, twins: &twins }.label(Params::default()));
}
